#!/usr/bin/env bash
# Tries linkcheck where the world around it fails: reading, writing, memory, processes. No such fault may become a verdict: each run ends
# with the right answers, or with a message and a status that says that something could not be done. test/faults.c makes single calls go
# wrong.
# Ends with 1 at the first fault. Usage: test_faults.sh [PROGRAM], for another program than the one that is built from these sources.
set -euo pipefail
cd "$(dirname "$0")/.."
export LC_ALL=C
work=$(mktemp -d)
first=
trap 'if [ -n "$first" ]; then kill "$first"; fi; rm -rf "$work"' EXIT
linkcheck=${1:-$work/linkcheck}
if [ $# = 0 ]; then linkcheck/build.sh "$linkcheck" -U_FORTIFY_SOURCE; fi
compile() { ${CC:-cc} -std=c11 -Wall -Wextra -O2 "$@"; }
faults=$work/faults.so
compile -fPIC -shared linkcheck/test/faults.c -o "$faults" -ldl
compile linkcheck/test/nonblocking.c -o "$work/nonblocking"

tables=compare/tables
good=$tables/P_given.txt bad=$tables/P_data_row3.txt none=$tables/t45.txt
marked=$tables/m_P_given.txt other=examples/retry.txt full=$tables/m_t3_fields_4096_without.txt
leads_out=$tables/P_first_size_2.txt loop=$work/loop still=$tables/buffer1.txt no_value=examples/bad-no-pumps.txt
after=examples/self-test.txt
sed '$d' "$other" > "$loop"
EIO=5 EINTR=4 EAGAIN=11 ENOMEM=12 EACCES=13 EMFILE=24 ENOSPC=28 ECHILD=10 ECONNRESET=104

fail() {
    echo "linkcheck faults: $*" >&2
    exit 1
}

# due STATUS MESSAGE COMMAND...: the command ends with this status and has these words on standard error; nothing there if they are empty.
due() {
    local status=$1 message=$2 got=0
    shift 2
    "$@" > "$work/out" 2> "$work/error" || got=$?
    [ "$got" = "$status" ] || fail "$*: status $got, $status is due: $(cat "$work/error")"
    said "$message" "$*"
}
said() {
    if [ -z "$1" ]; then
        [ ! -s "$work/error" ] || fail "$2: $(cat "$work/error")"
    else
        grep -qF -e "$1" "$work/error" || fail "$2: \"$1\" is due on standard error: $(cat "$work/error")"
    fi
}
written() { [ "$(cat "$work/out")" = "$1" ] || fail "$2: \"$1\" is due, not \"$(cat "$work/out")\""; }
# faulty CALL AT HOW COMMAND...: runs the command with the fault.
faulty() {
    local call=$1 at=$2 how=$3
    shift 3
    LD_PRELOAD=$faults FAULT_CALL=$call FAULT_AT=$at FAULT_HOW=$how "$@"
}

# ---- reading ----

# A whole table has come when reading fails: no verdict, and no columns. The pipe stays open for writing, so that its end is never told.
mkfifo "$work/pipe"
exec 9<> "$work/pipe"
for arguments in "-" "--json -" "-j 2 - $good" "--show -" "--aut impl -" "--dot -" "--columns" "--columns -" "--mark -" "--unmark -" \
    "--measure -" "--measure --json -" "--typed -" "--typed --show -"; do
    cat "$good" >&9
    # shellcheck disable=SC2086
    due 3 "linkcheck: -: Resource temporarily unavailable" "$work/nonblocking" "$linkcheck" $arguments <&9
    if grep -v -e unreadable -e 'not read$' -e "^$good  accepted" "$work/out"; then fail "$arguments: written after a read error"; fi
done
for look in --columns --show "--aut impl" "--aut-states spec" --dot --mark --unmark --measure "--typed --show"; do
    # shellcheck disable=SC2086
    due 3 "linkcheck: -: Connection reset by peer" faulty read 2 $ECONNRESET "$linkcheck" $look - < "$good"
    written "" "$look after a read error"
    # shellcheck disable=SC2086
    due 3 "linkcheck: $good: Input/output error" faulty read 2 $EIO "$linkcheck" $look "$good"
    written "" "$look after a read error"
done
# Commands that can't be read: what was shown before stays.
printf 'g 9\n' >&9
due 3 "linkcheck: standard input: Resource temporarily unavailable" "$work/nonblocking" "$linkcheck" --walk "$good" <&9
[ "$(grep -c '^state ' "$work/out")" = 2 ] || fail "--walk after a read error: $(cat "$work/out")"
due 3 "linkcheck: $good: Input/output error" faulty read 1 $EIO "$linkcheck" --walk "$good"
written "" "--walk after a read error"
exec 9>&-
due 3 "linkcheck: standard input: Bad file descriptor" "$linkcheck" --walk "$good" <&-
due 2 "linkcheck: -: Input/output error" eval "{ faulty read 2 $EIO \"$linkcheck\" --columns || true; } < $good | \"$linkcheck\" -"
written "-  turned down 4 (kinds of lines): no line of kinds 1, 2, 5, 6 and 7
1 table: 0 accepted, 0 failed, 1 turned down" "the check of columns that could not be read"

# A folder without a table.
mkdir -p "$work/empty/within"
: > "$work/empty/.hidden"
due 3 "linkcheck: $work/empty: no table in this folder" "$linkcheck" "$work/empty"
written "0 tables: 0 accepted, 0 failed, 0 turned down; 1 not read" "an empty folder"
due 3 "no table in this folder" "$linkcheck" "$good" "$work/empty"
written "$good  accepted
1 table: 1 accepted, 0 failed, 0 turned down; 1 not read" "an empty folder beside a table"

# Reports keep their places: what could not be read has as many bytes, which are no report.
due 3 "linkcheck: $work/missing: No such file or directory" "$linkcheck" --report "$bad" "$work/missing" "$good"
written "     1     8     9     3     0
     9 not read               
     0     0     0     0     0" "--report with a missing file"
[ "$(wc -c < "$work/out")" = 93 ] || fail "--report with a missing file: the reports are shifted"

# ---- standard input and several processes ----

due 64 "linkcheck: standard input can be given once: -" "$linkcheck" - - < "$good"
due 64 "standard input can be given once" "$linkcheck" -j 2 - "$bad" - < "$good"
slowly() { while IFS= read -r line; do printf '%s\n' "$line"; sleep 0.02; done < "$1"; }
for jobs in 1 2 3 4; do
    due 1 "" "$linkcheck" -j $jobs "$bad" - "$bad" "$bad" < <(slowly "$good")
    grep -qx -e "-  accepted" "$work/out" || fail "- among other tables: $(cat "$work/out")"
    due 2 "" "$linkcheck" --report -j $jobs /dev/stdin /dev/stdin < <(slowly "$good")
    written "     0     0     0     0     0
     2     4     0     0     0" "a pipe given twice"
done

# Closed descriptors: using one is an error, and no file gets its number.
closed() { # closed DESCRIPTORS STATUS ARGUMENTS...
    local which=$1 status=$2 got=0
    shift 2
    eval '"$linkcheck" "$@" > "$work/out" 2> "$work/error"' "$which" || got=$?
    [ "$got" = "$status" ] || fail "$* $which: status $got, $status is due"
}
due 3 "linkcheck: /dev/stdin: " "$linkcheck" /dev/stdin <&-
due 3 "linkcheck: standard input: Too many open files" faulty socket 1 $EMFILE "$linkcheck" "$good" <&-
for jobs in 1 2 3; do
    due 3 "linkcheck: -: Bad file descriptor" "$linkcheck" -j $jobs - "$bad" "$good" <&-
    due 3 "linkcheck: -: Bad file descriptor" "$linkcheck" -j $jobs "$bad" - "$good" <&-
    due 1 "" "$linkcheck" -j $jobs "$bad" "$good"
    cp "$work/out" "$work/whole"
    for which in '<&-' '2>&-' '<&- 2>&-'; do
        closed "$which" 1 -j $jobs "$bad" "$good"
        cmp "$work/out" "$work/whole" || fail "$which: $(cat "$work/out")"
    done
    for which in '>&-' '<&- >&-'; do
        closed "$which" 3 -j $jobs "$bad" "$good"
        said "linkcheck: cannot write: Bad file descriptor" "$which"
    done
    for which in '>&- 2>&-' '<&- >&- 2>&-'; do closed "$which" 3 -j $jobs "$bad" "$good"; done
done
# A message that can't be written.
closed '2>&-' 3 --columns README.md
closed '2>&-' 3 --columns "$work/missing"
closed '2>&-' 3 --unmark "$other"
closed '2>&-' 3 --measure "$leads_out"
closed '2>&-' 3 --measure "$no_value"

# What a process sends is looked at: if any byte of its first header is another, its table is not checked, and so is what it has sent beside;
# that is named and counted, and the other process does the rest.
for ((place = 0; place < 32; place++)); do
    FAULT_IN=worker due 3 "linkcheck: $good: not checked, as the process for it failed" \
        faulty write 1 "flip $place" "$linkcheck" -j 2 "$good"{,,,,,,,}
    unread=$(grep -c "not checked" "$work/error")
    written "$(for ((i = unread; i < 8; i++)); do echo "$good  accepted"; done
    read=$((8 - unread))
    echo "$read table$([ $read = 1 ] || echo s): $read accepted, 0 failed, 0 turned down; $unread not read")" "byte $place of a header"
done

# A library that was made for other rules. What is no verdict, as the report says something else or there is no such verdict, is told as
# not read, and the run goes on. A verdict stays as it is, without words where what linkcheck finds doesn't fit it: accepted though the text
# is no table, a first internal step where there is none or none where there is one, a criterion that there isn't, a row where there is
# none or none where there is one, a sum value or a state that there isn't, a criterion that holds, 10 where nothing lacks a value, another
# where something does. So do the answers of the writers and of a measure: a number beside a result is none, any other stays.
if [ $# = 0 ]; then
    compile linkcheck/*.c linkcheck/test/other_rules.c target/staticlib/lib{lent_desk,duty,looking}.a -o "$work/other"
    while read -r returns verdict table; do
        for jobs in 1 2; do
            OTHER_RETURNS=$returns OTHER_VERDICT=$verdict due 3 "$table: the library was built for other rules" \
                "$work/other" -j $jobs "$table" "$table"
            written "0 tables: 0 accepted, 0 failed, 0 turned down; 2 not read" "$table by other rules"
        done
        OTHER_RETURNS=$returns OTHER_VERDICT=$verdict due 3 "the library was built for other rules" "$work/other" --show "$table"
        written "" "--show $table by other rules"
    done << END
3 0 $after
0 3 $after
4 4 $good
4 4 $after
9 0 $good
0 1 $good
1 0 $good
4294967295 0 $good
END
    # bare RETURNS WORDS MEMBERS TABLE: the verdict stands alone, in words, as a JSON object and after --show.
    bare() {
        local status=$1
        if [ "$status" = 3 ]; then status=4; fi
        OTHER_RETURNS=$1 OTHER_VERDICT=$1 due "$status" "" "$work/other" "$4" "$4"
        [ "$(head -n 2 "$work/out")" = "$4  $2"$'\n'"$4  $2" ] || fail "\"$2\" is due by other rules: $(cat "$work/out")"
        OTHER_RETURNS=$1 OTHER_VERDICT=$1 due "$status" "" "$work/other" --json "$4"
        written "{\"file\":\"$4\",$3}" "$4 by other rules"
        linkcheck/test/schema.py < "$work/out" > /dev/null || fail "$4 by other rules is not as schema.json says"
        OTHER_RETURNS=$1 OTHER_VERDICT=$1 due "$status" "" "$work/other" --show "$4"
        [ "$(tail -n 1 "$work/out")" = "$4  $2" ] || fail "--show $4 by other rules: $(cat "$work/out")"
    }
    bare 3 "accepted after a first internal step" '"verdict":"accepted after internal"' "$good"
    bare 3 "accepted after a first internal step" '"verdict":"accepted after internal"' "$none"
    bare 0 "accepted" '"verdict":"accepted"' "$after"
    bare 0 "accepted" '"verdict":"accepted"' "$none"
    for look in "--aut impl" "--dot impl"; do
        # shellcheck disable=SC2086
        OTHER_RETURNS=0 OTHER_VERDICT=0 due 3 "the library was built for other rules" "$work/other" $look "$none"
        written "" "$look of a text that is no table"
    done
    OTHER_CRITERION=99 bare 2 "turned down 99" '"verdict":"turned down","number":99' "$none"
    OTHER_CRITERION=6 bare 2 "turned down 6 (terms)" '"verdict":"turned down","number":6,"about":"terms"' "$good"
    while read -r criterion state row sum table; do
        export OTHER_CRITERION=$criterion OTHER_STATE=$state OTHER_ROW=$row OTHER_SUM=$sum
        bare 1 "failed: criterion $criterion, state $state, row $row, sum value $sum" \
            "\"verdict\":\"failed\",\"criterion\":$criterion,\"state\":$state,\"row\":$row,\"sum\":$sum" "$table"
    done << END
0 0 0 0 $good
11 0 0 0 $good
1 0 0 0 $good
1 0 1 0 $bad
2 0 1 0 $good
2 12 0 0 $good
2 0 0 1 $good
4 0 1 0 $good
4 4 2 0 $leads_out
5 0 1 0 $good
6 4 2 0 $leads_out
8 0 3 0 $tables/P_cond_row3_true.txt
9 0 3 0 $tables/P_cond_row3_true.txt
4 65535 2 0 $good
8 0 0 0 $good
8 0 4 0 $good
8 9 3 0 $good
8 9 3 1 $bad
10 0 0 0 $good
10 0 1 0 $no_value
8 0 2 0 $no_value
2 0 0 0 $no_value
10 4 0 0 $no_value
8 9 3 0 $none
END
    unset OTHER_CRITERION OTHER_STATE OTHER_ROW OTHER_SUM
    # With the right answers there are words.
    OTHER_RETURNS=3 OTHER_VERDICT=3 due 4 "" "$work/other" "$after"
    grep -q "^$after  accepted after a first internal step: " "$work/out" || fail "verdict 3 of $after: $(cat "$work/out")"
    OTHER_RETURNS=0 OTHER_VERDICT=0 due 0 "" "$work/other" "$good"
    while read -r criterion state row table; do
        export OTHER_RETURNS=1 OTHER_VERDICT=1 OTHER_CRITERION=$criterion OTHER_STATE=$state OTHER_ROW=$row
        due 1 "" "$work/other" "$table"
        grep -q "failed: criterion $criterion (" "$work/out" || fail "criterion $criterion of $table: $(cat "$work/out")"
    done << END
1 0 0 $tables/P_inv_false.txt
3 4 2 $leads_out
5 4 2 $loop
8 9 3 $bad
10 0 0 $no_value
10 3 0 $no_value
END
    unset OTHER_RETURNS OTHER_VERDICT OTHER_CRITERION OTHER_STATE OTHER_ROW
    # The writers: no length, or too large a one, beside a result; a length beside a number that is none.
    while read -r returns number arguments; do
        # shellcheck disable=SC2086
        OTHER_RETURNS=$returns OTHER_VERDICT=$number due 3 "the library was built for other rules" "$work/other" $arguments
        written "" "$arguments by other rules"
    done << END
0 0 --mark $good
24661 0 --mark $good
800 16 --mark $good
800 4 --mark $none
800 15 --unmark $other
END
    while read -r number words; do
        OTHER_RETURNS=0 OTHER_VERDICT=$number due 2 "turned down" "$work/other" --mark "$good"
        written "" "--mark $good by other rules"
        [ "$(cat "$work/error")" = "linkcheck: $good: turned down $words" ] || fail "turned down $words: $(cat "$work/error")"
    done << 'END'
8 8
15 15 (marks)
4 4 (kinds of lines)
END
    while read -r arguments; do
        # shellcheck disable=SC2086
        OTHER_RETURNS=800 OTHER_VERDICT=0 due 0 "" "$work/other" $arguments
        [ "$(wc -c < "$work/out")" = 800 ] || fail "$arguments by other rules: $(wc -c < "$work/out") bytes"
    done << END
--unmark $none
--unmark $other
--mark $full
END
    OTHER_RETURNS=0 OTHER_VERDICT=15 due 2 "line 13: the formula of row 2 is not 10" "$work/other" --unmark "$other"
    # measured RETURNS NUMBER PLACES TABLE WORDS: a measure by other rules stands alone.
    measured() {
        local returns=$1 number=$2 table=$4 words=$5 members
        export OTHER_RETURNS=$returns OTHER_VERDICT=$number OTHER_PLACES=$3
        due "$returns" "$([ "$returns" != 2 ] || echo "linkcheck: $table: $words")" "$work/other" --measure "$table"
        written "$([ "$returns" = 2 ] || echo "$table  $words")" "--measure $table by other rules"
        case $returns in
        0) members='"measure":"filled"' ;;
        1) members="\"measure\":\"loop\",\"state\":$number" ;;
        2) members="\"measure\":\"turned down\",\"number\":$number" ;;
        esac
        due "$returns" "" "$work/other" --measure --json "$table"
        written "{\"file\":\"$table\",$members}" "--measure --json $table by other rules"
        linkcheck/test/schema.py < "$work/out" > /dev/null || fail "--measure --json $table by other rules is not as schema.json says"
        unset OTHER_RETURNS OTHER_VERDICT OTHER_PLACES
    }
    while read -r number places table; do
        measured 0 "$number" "$places" "$table" "there is a measure that meets criterion 5"
    done << END
0 0 $good
0 1 $good
0 1 $still
1 0 $still
0 0 $leads_out
0 0 $loop
0 0 $none
END
    while read -r number places table; do
        measured 1 "$number" "$places" "$table" "no measure meets criterion 5: state $number is on a loop"
    done << END
0 0 $good
12 0 $good
4294967295 0 $good
0 0 $still
8 0 $loop
4 1 $loop
4 0 $leads_out
0 0 $none
END
    while read -r number table; do measured 2 "$number" 0 "$table" "turned down $number"; done << END
0 $good
4 $good
17 $good
18 $good
0 $none
5 $none
18 $none
0 $leads_out
17 $leads_out
0 $no_value
17 $no_value
END
    for returns in 3 4294967295; do
        export OTHER_RETURNS=$returns OTHER_VERDICT=0 OTHER_PLACES=0
        due 3 "the library was built for other rules" "$work/other" --measure "$still"
        written "" "--measure by other rules"
        due 3 "the library was built for other rules" "$work/other" --measure --json "$still"
        linkcheck/test/schema.py < "$work/out" > /dev/null || fail "--measure --json by other rules is not as schema.json says"
        unset OTHER_RETURNS OTHER_VERDICT OTHER_PLACES
    done
    # With the right answers there are words.
    while read -r returns number table words; do
        OTHER_RETURNS=$returns OTHER_VERDICT=$number OTHER_PLACES=0 due "$returns" "" "$work/other" --measure --json "$table"
        grep -q "$words" "$work/out" || fail "--measure --json $table: $(cat "$work/out")"
    done << END
0 0 $still "largest":0
1 7 $loop "loop":
2 18 $leads_out "about":"criterion 3"
2 18 $no_value "about":"criterion 10"
2 4 $none "about":"kinds of lines"
END
fi

# ---- writing ----

# A full disk, and one that tells so when the output is closed.
for look in --show --mark --unmark --measure; do
    due 3 "linkcheck: cannot write: Input/output error" faulty close 1 $EIO "$linkcheck" $look - < "$good"
done
if [ -c /dev/full ]; then
    for arguments in "$good" "-j 2 $good $bad" "--report $good" "--json $good" "--show $good" "--aut impl $good" "--dot $good" \
        "--aut-states impl $good" "--typed $good" "--typed --json $good" "--columns $good" "--walk $good" "--mark $good" \
        "--unmark $marked" "--measure $good" "--measure --json $good" "--measure $loop" "--help"; do
        got=0
        # shellcheck disable=SC2086
        "$linkcheck" $arguments > /dev/full 2> "$work/error" < /dev/null || got=$?
        [ "$got" = 3 ] || fail "$arguments on a full disk: status $got"
        said "linkcheck: cannot write: No space left on device" "$arguments on a full disk"
    done
fi

# ---- names ----

# An escape, byte 10, byte 155 alone and as a character, byte 127, two characters that may be printed, and bytes that are no character.
odd=$'\e[31m\n\233\302\233\177\303\251\342\202\254\355\240\200'
shown=$'?[31m????\303\251\342\202\254???'
named() { # named OUTPUT STATUS LINE ARGUMENTS...: the first line there
    local stream=$1 status=$2 line=$3 got=0
    shift 3
    "$linkcheck" "$@" > "$work/out" 2> "$work/error" || got=$?
    [ "$got" = "$status" ] || fail "an odd name: status $got, $status is due"
    [ "$(head -n 1 "$work/$stream")" = "$line" ] || fail "an odd name: $(head -n 2 "$work/$stream" | od -c)"
}
named error 64 "linkcheck: unknown option: --$shown" "--$odd"
named error 64 "linkcheck: -j takes a number from 1 to 256: $shown" -j "$odd" "$good"
named error 64 "linkcheck: impl or spec is due, not: $shown" --aut "$odd" "$good"
named error 64 "linkcheck: too many arguments: $shown" --show "$good" "$odd"
for look in "" --json --report --show --columns "--aut impl" "--aut-states impl" --dot --mark --unmark --measure --typed; do
    # shellcheck disable=SC2086
    named error 3 "linkcheck: $work/$shown: No such file or directory" $look "$work/$odd"
done
escaped="\\u001b[31m\\u000a\\ufffd\\u009b\\u007f"$'\303\251\342\202\254'"\\ufffd\\ufffd\\ufffd"
named out 3 "{\"file\":\"$work/$escaped\",\"verdict\":\"unreadable\",\"why\":\"No such file or directory\"}" --json "$work/$odd"
named out 3 "{\"file\":\"$work/$escaped\",\"measure\":\"unreadable\",\"why\":\"No such file or directory\"}" --measure --json "$work/$odd"
echo x > "$work/$odd"
no_number="turned down (typed numbers), line 1, column 1: \`x\` is no number from 0 to 65535"
no_columns="turned down 2 (columns), line 1: 1 byte, \`x\`, is not whole fields of six columns"
named error 2 "linkcheck: $work/$shown: $no_number" --columns "$work/$odd"
for look in "--aut impl" "--aut-states impl" --dot --mark --unmark --measure; do
    # shellcheck disable=SC2086
    named error 2 "linkcheck: $work/$shown: $no_columns" $look "$work/$odd"
    # shellcheck disable=SC2086
    named error 2 "linkcheck: $work/$shown: $no_number" --typed $look "$work/$odd"
done
for look in "" --show; do
    named out 2 "$work/$shown  $no_columns" $look "$work/$odd"
    named out 2 "$work/$shown  $no_number" --typed $look "$work/$odd"
done

# ---- a fault at every call ----

# Every run with a fault at the n-th call, n from 1 until none is reached, ends as the one without a fault does, with the same lines; or
# with status 3, a message, and lines that are all right, none lost from the counts.
runs=0
declare -A seen known

# A line of a run that ended with 3: one of the run without a fault, or one that says that something was not read.
right_line() {
    [ -n "${known["x$1"]:-}" ] || [[ $1 =~ $summary_line ]] || [ "$1" = "     9 not read               " ] ||
        [[ $1 == '{"file":"'*'","'@(verdict|measure)'":"unreadable","why":"'*'"}' ]]
}
summary_line='^([0-9]+) tables?: ([0-9]+) accepted, (([0-9]+) accepted after a first internal step, )?([0-9]+) failed, '
summary_line+='([0-9]+) turned down(, ([0-9]+) with another duty)?(, ([0-9]+) not finished)?(; ([0-9]+) not read)?$'
# The summary of such a run counts as many tables as have their line, and all, unless a folder could not be looked at.
counts_are_right() {
    [[ $2 =~ $summary_line ]] || return 0
    local read=$((BASH_REMATCH[2] + ${BASH_REMATCH[4]:-0} + BASH_REMATCH[5] + BASH_REMATCH[6])) unread=${BASH_REMATCH[12]:-0}
    read=$((read + ${BASH_REMATCH[8]:-0} + ${BASH_REMATCH[10]:-0}))
    [ "$read" = "${BASH_REMATCH[1]}" ] && [ "$read" = $((${#lines[@]} - 1)) ] && [ "$unread" -gt 0 ] || return 1
    [ $((read + unread)) = "$in_all" ] || { [[ $1 =~ ^(scandir|stat|lstat|.*alloc)$ ]] && [ $((read + unread)) -lt "$in_all" ]; }
}
wrong() { fail "$call number $n, fault $how, ${arguments[*]}: $*"; }
# Looks at a run by its status, got, and its outputs. A call that only has to be made again must not show.
judge() {
    local out error line
    IFS= read -r -d '' out < "$work/out" || true
    IFS= read -r -d '' error < "$work/error" || true
    if [ "$got $out$error" = "$whole_status $whole$whole_error" ]; then return; fi
    if [ "$how" = short ] || [[ "$call $how" =~ ^(read|write|waitpid)\ $EINTR$ ]]; then wrong "not as without the fault"; fi
    if [ "$how $got" = "kill 137" ] && [[ $whole == "$out"* ]]; then return; fi
    [ "$got" = 3 ] || wrong "status $got, $whole_status without the fault"
    # It may be the message that could not be written.
    [ -n "$error" ] || [ "$call $out" = "write $whole" ] || wrong "no message"
    if [[ $whole == "$out"* ]]; then return; fi
    mapfile -t lines < "$work/out"
    for line in "${lines[@]}"; do right_line "$line" || wrong "$line"; done
    counts_are_right "$call" "${lines[-1]}" || wrong "${lines[-1]}"
}
# at_every_call CALL HOW: the arguments with $input as standard input. Number 0 is every call.
at_every_call() {
    local call=$1 how=$2 n=1
    if [ "$how" = short ]; then n=0; fi
    while :; do
        got=0
        : > "$work/reached"
        faulty "$call" "$n" "$how" "$linkcheck" "${arguments[@]}" < "$input" > "$work/out" 2> "$work/error" || got=$?
        judge
        if [ ! -s "$work/reached" ]; then break; fi
        n=$((n + 1)) runs=$((runs + 1)) seen[$call]=$((${seen[$call]:-0} + 1))
    done
}
calls=("read $EIO" "read $EAGAIN" "read $EINTR" "read short" "write $ENOSPC" "write $EINTR" "write short" "close $EIO" "close $EINTR"
    "malloc $ENOMEM" "calloc $ENOMEM" "realloc $ENOMEM" "open $EMFILE" "open $EINTR" "stat $EACCES" "lstat $EIO" "scandir $ENOMEM"
    "fcntl $EINTR" "pipe $EMFILE" "mmap $ENOMEM" "rename $EACCES" "fsync $EIO" "fork $EAGAIN" "waitpid $EINTR" "waitpid $ECHILD" "read kill" "write kill" "close kill" "malloc kill")
# Each fault with these arguments.
with_every_fault() {
    local line
    arguments=("$@") got=0
    "$linkcheck" "$@" < "$input" > "$work/out" 2> "$work/error" || got=$?
    whole_status=$got
    IFS= read -r -d '' whole < "$work/out" || true
    IFS= read -r -d '' whole_error < "$work/error" || true
    known=() in_all=0
    while IFS= read -r line; do
        known["x$line"]=1
        if [[ $line =~ $summary_line ]]; then in_all=$((BASH_REMATCH[1] + ${BASH_REMATCH[12]:-0})); fi
    done < "$work/out"
    for line in "${calls[@]}"; do
        # shellcheck disable=SC2086
        at_every_call $line
    done
}
export FAULT_REACHED=$work/reached MALLOC_PERTURB_=165
mkdir -p "$work/store/within"
for i in 1 2 3 4 5 6; do cp "$good" "$work/store/good$i.txt"; done
cp "$bad" "$work/store/within/bad.txt"
# Typed: a table with several faults, and a file with other words than numbers.
sed 's/1$//; s/^     5.*/5 2 # a comment/' "$good" > "$work/several"
sed 's/1$/x/' "$good" > "$work/words"
input=/dev/null
with_every_fault "$work/store"
with_every_fault -j 3 "$work/store"
with_every_fault -j 16 "$work/store" "$work/store" "$good"
with_every_fault --json -j 2 "$work/store"
with_every_fault --report "$work/store" "$none"
with_every_fault -j 2 "$good" "$work/missing" "$good"
with_every_fault -j 2 "$good" "$after" "$good" "$after"
input=$good with_every_fault -j 2 "$bad" - "$good"
input=$good with_every_fault --columns
with_every_fault --columns README.md
with_every_fault --show "$bad"
with_every_fault --show "$after"
printf '%s\n' 1 1 b 'g 9' 7 x '' > "$work/commands"
input=$work/commands with_every_fault --walk "$bad"
with_every_fault --walk "$none"
with_every_fault --aut impl "$good"
with_every_fault --aut-states spec "$good"
with_every_fault --dot spec "$good"
with_every_fault --dot "$bad"
with_every_fault --dot --around 9 "$bad"
with_every_fault --aut impl "$none"
with_every_fault --typed -j 2 "$good" "$work/several" "$work/words"
with_every_fault --typed --json "$work/several" "$work/words"
with_every_fault --typed --show "$work/several"
with_every_fault --typed --dot "$work/words"
with_every_fault --mark "$good"
input=$marked with_every_fault --unmark -
with_every_fault --unmark "$other"
with_every_fault --measure "$good"
input=$loop with_every_fault --measure -
with_every_fault --measure "$leads_out"
with_every_fault --measure "$no_value"
with_every_fault --measure "$none"
with_every_fault --measure --json "$tables/s_0_256_256.txt"
input=$loop with_every_fault --measure --json -
with_every_fault --measure --json "$leads_out"
with_every_fault --json -j 2 "$no_value" "$good" "$after"
with_every_fault --duty "$good" -j 2 "$work/store" "$other" "$none"
with_every_fault --duty "$good" --show "$other"
with_every_fault --duty "$none" "$good"
with_every_fault --timeout 50 -j 2 "$good" "$bad" "$good"
with_every_fault --junit "$work/suite.xml" "$good" "$bad" "$work/missing"
with_every_fault --junit "$work/suite.xml" -j 2 "$good" "$bad" "$none"
with_every_fault --measure --json "$work/missing"
sanitized="no sanitizer"
export ASAN_OPTIONS=exitcode=99:verify_asan_link_order=0 UBSAN_OPTIONS=print_stacktrace=1
if [ $# = 0 ] && linkcheck/build.sh "$work/sanitized" -g -fsanitize=address,undefined -fno-sanitize-recover=all 2> "$work/error" &&
    faulty none 1 $EIO "$work/sanitized" --help > /dev/null 2>&1; then
    plain=$linkcheck linkcheck=$work/sanitized sanitized="some with the sanitizers"
    with_every_fault --json -j 2 "$good" "$work/missing" "$work/store/within"
    input=$good with_every_fault --columns
    with_every_fault --dot spec "$good"
    input=$work/commands with_every_fault --walk "$bad"
    with_every_fault --mark "$good"
    with_every_fault --measure "$loop"
    with_every_fault --measure --json "$good"
    linkcheck=$plain
fi
unset FAULT_REACHED MALLOC_PERTURB_
for line in "${calls[@]}"; do [ "${seen[${line% *}]:-0}" -gt 0 ] || fail "no call of ${line% *} was reached"; done
[ "$runs" -ge 1000 ] || fail "only $runs runs with a fault"
# What linkcheck calls is either tried above or can't go wrong: poll is asked again, and strdup needs malloc.
can_not='alarm|alphasort|clock_gettime|_?exit|fnmatch|free|getenv|getpid|isatty|mem.*|munmap|poll|qsort|sig.*|str.*|unlink|v?sn?printf'
can_not+='|_ITM_.*|__(assert|ctype|cxa|errno|gmon|libc|stack)_.*'
if [ $# = 0 ] && imported=$(nm -D --undefined-only "$linkcheck" 2> /dev/null); then
    while read -r _ call; do
        call=${call%%@*}
        [ "${seen[$call]:-0}" -gt 0 ] || [ "$call" = socket ] || [[ $call =~ ^($can_not)$ ]] || fail "$call is not tried"
    done <<< "$imported"
fi

# ---- killed processes ----

# A table whose check takes far longer than what follows: 65,536 states, 32 rows of 256 sum values, none of which is ever enabled, and each
# of which reads both parameters, so that what is known of a state is of no use for the next.
{
    printf '1 256 0\n1 256 0\n2 1 0\n'
    for ((row = 1; row <= 32; row++)); do echo "3 $row 256 12 5 3 2 5 3 2 5 3 2 5 3 2 3 1 0 1 1 0 7 0 7 0 7 0 7 0 9 0 0 1 0 1 1"; done
    printf '5 10\n6 0 0\n7 0 0\n'
} > "$work/typed"
"$linkcheck" --columns "$work/typed" > "$work/slow"
pipes() { find "/proc/$1/fd" -lname 'pipe:*' -printf '%l\n'; }
children() { ps -A -o pid= -o ppid= | awk -v parent="$1" '$2 == parent { print $1 }'; }
running() { case $(ps -o stat= -p "$1" || true) in "" | Z*) return 1 ;; esac; }
# Starts linkcheck in the background in three processes, the first of which is soon done, and waits until it is: the others are in busy.
start_slow() {
    "$linkcheck" -j 3 "$good" "$work/slow" "$work/slow" "$good" > "$work/out" 2> "$work/error" < /dev/null &
    first=$!
    local worker workers tries
    for ((tries = 0; tries < 200; tries++)); do
        mapfile -t workers < <(children "$first")
        busy=()
        for worker in "${workers[@]}"; do if running "$worker"; then busy+=("$worker"); fi; done
        if [ "${#workers[@]} ${#busy[@]}" = "3 2" ]; then return; fi
        sleep 0.05
    done
    fail "the processes don't start"
}
ended_soon() {
    local worker tries
    for worker in "${busy[@]}"; do
        for ((tries = 0; tries < 100; tries++)); do
            if ! running "$worker"; then break; fi
            sleep 0.05
        done
        if running "$worker"; then
            kill -KILL "${busy[@]}"
            fail "$1: a process goes on without the first"
        fi
    done
}
for signal in TERM KILL; do
    start_slow
    for worker in "${busy[@]}"; do
        if [ -d "/proc/$worker/fd" ]; then
            ends=$(pipes "$worker" | grep -cvxF -e none -f <(pipes $$) || true)
            [ "$ends" = 1 ] || fail "a process holds $ends pipe ends"
        fi
    done
    kill -$signal "$first"
    wait "$first" 2> /dev/null && fail "status 0 after SIG$signal"
    first=
    ended_soon "SIG$signal"
done
start_slow
kill -KILL "${busy[@]}"
got=0
wait "$first" || got=$?
first=
[ "$got" = 3 ] || fail "killed processes: status $got"
said "linkcheck: $work/slow: not checked, as the process for it failed" "killed processes"
written "$good  accepted
$good  accepted
2 tables: 2 accepted, 0 failed, 0 turned down; 2 not read" "killed processes"
echo "linkcheck faults: $runs runs with a fault at one call, $sanitized: no fault"
for call in "${!seen[@]}"; do echo "    $call ${seen[$call]}"; done | sort
