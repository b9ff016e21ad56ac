#!/usr/bin/env bash
# Tries linkcheck as a store uses it: which files of a folder are tables, the duty, checks that take long, processes of which one is slow or
# killed, and what a terminal and a build server get. Ends with 1 at the first fault. Usage: test_store.sh FOLDER..., folders with tables.
# It takes the sanitizers' build that SANITIZED names, none if that is empty, and makes one if it is not set.
set -euo pipefail
cd "$(dirname "$0")/.."
export LC_ALL=C
unset NO_COLOR
export TERM=xterm
work=$(mktemp -d)
first=
trap 'if [ -n "$first" ]; then kill "$first" 2> /dev/null || true; fi; rm -rf "$work"' EXIT
plain=$PWD/target/bin/linkcheck linkcheck=$PWD/target/bin/linkcheck checked="no sanitizer"
export ASAN_OPTIONS=exitcode=99:verify_asan_link_order=0 UBSAN_OPTIONS=print_stacktrace=1
if [ -z "${SANITIZED+set}" ] && linkcheck/build.sh "$work/sanitized" -g -fsanitize=address,undefined -fno-sanitize-recover=all 2> "$work/error" &&
    "$work/sanitized" --help > /dev/null 2>&1; then
    SANITIZED=$work/sanitized
fi
if [ -n "${SANITIZED:-}" ]; then linkcheck=$SANITIZED checked="the address and undefined behaviour sanitizers"; fi
tables=compare/tables
good=$tables/P_given.txt bad=$tables/P_data_row3.txt none=$tables/t45.txt after=examples/self-test.txt other=examples/buffer-one.txt

fail() {
    echo "linkcheck store: $*" >&2
    exit 1
}
# due STATUS COMMAND...: the command ends with this status; $work/out and $work/error have what it wrote.
due() {
    local status=$1 got=0
    shift
    "$@" > "$work/out" 2> "$work/error" < "${input:-/dev/null}" || got=$?
    [ "$got" = "$status" ] || fail "$*: status $got, $status is due: $(head -n 3 "$work/error")"
}
written() { [ "$(cat "$work/out")" = "$1" ] || fail "\"$1\" is due, not \"$(cat "$work/out")\""; }
said() { [ "$(cat "$work/error")" = "$1" ] || fail "\"$1\" is due on standard error, not \"$(cat "$work/error")\""; }
counts() { [ "$(tail -n 1 "$work/out")" = "$1" ] || fail "\"$1\" is due, not \"$(tail -n 1 "$work/out")\""; }
now() { date +%s%N; }
# took LEAST MOST: since $began, in milliseconds.
took() {
    local took=$((($(now) - began) / 1000000))
    if [ $took -lt "$1" ] || [ $took -gt "$2" ]; then fail "$3: $took ms, $1 to $2 are due"; fi
}

# ---- which files ----

mkdir -p "$work/boards/within" "$work/none/within"
cp "$good" "$work/boards/a.txt"
cp "$bad" "$work/boards/within/b.txt"
cp README.md "$work/boards/README.md"
cp "$good" "$work/boards/c.table"
cp README.md "$work/none/within/README.md"
ln -s nowhere "$work/boards/link.md"
mkfifo "$work/boards/pipe"
due 1 "$linkcheck" --report "$work/boards"
written "     0     0     0     0     0
     1     8     9     3     0"
said ""
due 0 "$linkcheck" --glob '*.table' "$work/boards"
written "$work/boards/c.table  accepted
1 table: 1 accepted, 0 failed, 0 turned down"
due 1 "$linkcheck" --report --glob='[ab].t*' "$work/boards"
[ "$(wc -l < "$work/out")" = 2 ] || fail "--glob='[ab].t*': $(cat "$work/out")"
due 3 "$linkcheck" --glob '*' "$work/boards"
counts "4 tables: 2 accepted, 1 failed, 1 turned down; 2 not read"
due 2 "$linkcheck" "$work/boards/README.md" "$work/boards/c.table"
counts "2 tables: 1 accepted, 0 failed, 1 turned down"
ln -s nowhere "$work/boards/link.txt"
due 3 "$linkcheck" "$work/boards"
said "linkcheck: $work/boards/link.txt: No such file or directory"
rm "$work/boards/link.txt"
for format in "" --report --json; do
    due 3 "$linkcheck" ${format:+"$format"} "$work/none"
    said "linkcheck: $work/none: no table in this folder: no file named *.txt; --glob takes others"
    due 3 "$linkcheck" ${format:+"$format"} --glob '*.table' "$work/none" "$good"
    said "linkcheck: $work/none: no table in this folder: no file named *.table; --glob takes others"
done
due 64 "$linkcheck" --glob
due 64 "$linkcheck" --show --glob '*' "$good"

# ---- the duty ----

# Every table, against three duties; in columns and typed, in one process and in several.
for duty in "$good" "$tables/buffer2.txt" "$tables/abp_plain.txt"; do
    "$linkcheck" --json "$@" > "$work/plain" || [ $? = 2 ] || fail "--json: status $?"
    due 2 "$linkcheck" --json --duty "$duty" "$@"
    cp "$work/out" "$work/told"
    linkcheck/test/duty.py "$duty" "$work/plain" "$work/told" || fail "a duty is told otherwise"
    grep -v '"verdict":"turned down"' "$work/told" > "$work/sound"
    mapfile -t sound < <(sed 's/^{"file":"\([^"]*\)".*/\1/' "$work/sound")
    due 5 "$linkcheck" --json --duty="$duty" -j 3 --typed "${sound[@]}"
    cmp "$work/sound" "$work/out" || fail "--typed --duty differs"
done
linkcheck/test/schema.py < "$work/sound" > "$work/kinds" || fail "--duty --json is not as schema.json says"
grep -q other_duty "$work/kinds" || fail "no other duty: $(cat "$work/kinds")"
# differs WORDS CHANGE: the pump table with this change, held against the table as it is.
differs() {
    sed "$2" "$good" > "$work/changed.txt"
    if cmp -s "$good" "$work/changed.txt"; then fail "$2: no change"; fi
    for jobs in 1 2; do
        due 5 "$linkcheck" -j $jobs --duty "$good" "$work/changed.txt" "$good"
        written "$work/changed.txt  other duty$1
$good  accepted
2 tables: 1 accepted, 0 failed, 0 turned down, 1 with another duty"
        said ""
    done
    due 5 "$linkcheck" --duty "$good" --show "$work/changed.txt"
    counts "$work/changed.txt  other duty$1"
    [ "$(wc -l < "$work/out")" -gt 5 ] || fail "--show: $(cat "$work/out")"
    due 5 "$linkcheck" --duty "$good" --report "$work/changed.txt" "$good"
    written "     9 other duty             
     0     0     0     0     0"
    [ "$(wc -c < "$work/out")" = 62 ] || fail "--report with another duty: the reports are shifted"
}
differs ", line 3: parameter q0 has size 3 and initial value 0, the duty (line 3) size 2 and initial value 0" '3s/2     0$/3     0/'
differs ", line 4: parameter q1 has size 4 and initial value 3, the duty (line 4) size 4 and initial value 0" '4s/0$/3/'
differs ", line 5: parameter q2 is not in the duty" \
    '4s/$/\n     2     9     8/; s/^     4     .*/&     0     0/; s/^     6.*/&     0     8/'
differs ", line 8: row 1 (action 3) of the specification has action 3, the duty (line 8) action 1" 's/^\(     [34]\)     1     4/\1     3     4/'
differs ", line 8: row 1 (action 1) of the specification has span 3, the duty (line 8) span 4" 's/^\(     [34]     1\)     4/\1     3/'
differs ", line 9: row 2 (action 2) of the specification has condition q0 = 0, the duty (line 9) condition q0 = 1" '9s/0     1     1/0     0     1/'
differs ", line 9: row 2 (action 2) of the specification has data 0, the duty (line 9) data q1" '9s/1     1     0     0     1     1$/0     0     0     0     1     1/'
differs ", line 8: row 1 (action 1) of the specification has q0 := 0, the duty (line 8) q0 := 1" '8s/0     1     2$/0     0     2/'
differs ", line 9: row 2 (action 2) of the specification has q1 := 0, the duty (line 9) q1 := q1" '9s/1     1$/0     0/'
differs ", line 10: row 3 (action 7) of the specification is not in the duty" '9s/$/\n     4     7     1    11     0     0     0     0     0     0/'
differs ": row 2 (action 2) of the specification is missing, the duty has it (line 9)" '9d'
# Terms that look alike in infix are told by their fields.
alike="condition fields 15 15 10 10 10, the duty (line 9) condition fields 15 10 15 10 10"
sed '9s/12     1     0     0     1/15    10    15    10    10/' "$good" > "$work/duty.txt"
sed '9s/12     1     0     0     1/15    15    10    10    10/' "$good" > "$work/changed.txt"
due 5 "$linkcheck" --duty "$work/duty.txt" "$work/changed.txt"
[ "$(head -n 1 "$work/out")" = "$work/changed.txt  other duty, line 9: row 2 (action 2) of the specification has $alike" ] || fail "$(cat "$work/out")"
# The board may be another one, and the lines of the files are told.
{ echo '# a comment'; cat "$good"; } > "$work/typed.txt"
sed '9s/1     1$/0     0/' "$good" | sed '1s/^/\n\n/' > "$work/changed.txt"
due 5 "$linkcheck" --typed --duty "$work/typed.txt" "$work/changed.txt" "$bad"
grep -qF ", line 11: row 2 (action 2) of the specification has q1 := 0, the duty (line 10) q1 := q1" "$work/out" || fail "typed: $(cat "$work/out")"
grep -qF "$bad  failed: " "$work/out" || fail "typed: $(cat "$work/out")"
# The page shows what is said.
due 5 "$linkcheck" --duty examples/pump.txt examples/retry.txt examples/buffer-one.txt
while read -r line; do grep -qxF -e "    $line" README.md || fail "README.md does not show: $line"; done < "$work/out"
# The order of gravity: failed, other duty, turned down, not read.
due 5 "$linkcheck" --duty "$good" "$other" "$bad" "$after"
due 2 "$linkcheck" --duty "$good" "$none" "$other"
counts "2 tables: 0 accepted, 0 failed, 1 turned down, 1 with another duty"
due 3 "$linkcheck" --duty "$good" "$other" "$work/missing"
due 4 "$linkcheck" --duty "$good" "$after" "$good"
due 1 "$linkcheck" --duty "$bad" "$bad" "$good"
# A duty that is none: nothing is checked.
# no_duty MESSAGE DUTY ARGUMENTS...
no_duty() {
    due 3 "$linkcheck" --duty "$2" "${@:3}" "$good"
    written ""
    said "linkcheck: $1"
}
for look in "" --report --json --show; do
    no_duty "the duty $none: turned down 4 (kinds of lines): no line of kind 7" "$none" ${look:+"$look"}
    no_duty "$work/missing: No such file or directory" "$work/missing" ${look:+"$look"}
    no_duty "$work: Is a directory" "$work" ${look:+"$look"}
done
echo x > "$work/words"
no_duty "the duty $work/words: turned down (typed numbers), line 1, column 1: \`x\` is no number from 0 to 65535" "$work/words" --typed
input=$good due 5 "$linkcheck" --duty - "$other"
due 64 "$linkcheck" --duty - - < /dev/null
due 64 "$linkcheck" --duty "$good"
due 64 "$linkcheck" "$good" --duty
for look in --dot --measure --mark --walk; do due 64 "$linkcheck" --duty "$good" $look "$good"; done
# A library by other rules: what is no answer is none; a duty that differs by its word alone has no words.
${CC:-cc} -std=c11 -Wall -Wextra -O2 linkcheck/*.c linkcheck/test/other_duty.c \
    target/staticlib/lib{checker,lent_desk,conversion,measuring,looking}.a -o "$work/other"
for answer in 2 3 4 -1; do
    OTHER_DUTY=$answer due 3 "$work/other" --duty "$bad" "$good"
    said "linkcheck: $good: the library was built for other rules than linkcheck; build both anew"
done
OTHER_DUTY=2 due 2 "$work/other" --duty "$bad" "$none"
OTHER_DUTY=1 due 5 "$work/other" --duty "$bad" "$good"
counts "1 table: 0 accepted, 0 failed, 0 turned down, 1 with another duty"
[ "$(head -n 1 "$work/out")" = "$good  other duty" ] || fail "other rules: $(cat "$work/out")"
OTHER_DUTY=1 due 5 "$work/other" --duty "$bad" --json "$good"
written "{\"file\":\"$good\",\"verdict\":\"other duty\"}"
linkcheck/test/schema.py < "$work/out" > /dev/null || fail "another duty without words is not as schema.json says"

# ---- long checks ----

# By a desk every table has the same report, words and object.
for options in --report --json "" "--report -j 3"; do
    # shellcheck disable=SC2086
    due 2 "$linkcheck" $options "$@"
    cp "$work/out" "$work/plain"
    # shellcheck disable=SC2086
    due 2 "$linkcheck" --timeout 1000 $options "$@"
    cmp "$work/plain" "$work/out" || fail "--timeout 1000 $options: another answer by a desk"
done
# 65,536 states, 32 rows of 256 sum values, none of which is ever enabled, and each of which reads both parameters, so that what is known of
# a state is of no use for the next: a check that takes far longer than it is given.
{
    printf '1 256 0\n1 256 0\n2 1 0\n'
    for ((row = 1; row <= 32; row++)); do echo "3 $row 256 12 5 3 2 5 3 2 5 3 2 5 3 2 3 1 0 1 1 0 7 0 7 0 7 0 7 0 9 0 0 1 0 1 1"; done
    printf '5 10\n6 0 0\n7 0 0\n'
} | "$plain" --columns > "$work/slow.txt"
unfinished='not finished: [0-9,]* of 65,536 states in 0\.5 s'
began=$(now)
due 6 "$linkcheck" --timeout 0.5 "$good" "$work/slow.txt" "$good"
took 500 9000 "--timeout 0.5"
[ "$(sed -n 2p "$work/out" | grep -cx "$work/slow.txt  $unfinished")" = 1 ] || fail "--timeout: $(cat "$work/out")"
counts "3 tables: 2 accepted, 0 failed, 0 turned down, 1 not finished"
due 6 "$linkcheck" --timeout=0.2 --report "$bad" "$work/slow.txt" "$good"
written "     1     8     9     3     0
     9 not finished           
     0     0     0     0     0"
[ "$(wc -c < "$work/out")" = 93 ] || fail "--report of what isn't finished: the reports are shifted"
due 6 "$linkcheck" --timeout .2 --json "$work/slow.txt"
linkcheck/test/schema.py < "$work/out" > "$work/kinds" || fail "--timeout --json is not as schema.json says"
grep -q not_finished "$work/kinds" || fail "--timeout --json: $(cat "$work/out")"
grep -q '"examined":[1-9][0-9]*}' "$work/out" || fail "--timeout --json: $(cat "$work/out")"
due 6 "$linkcheck" --timeout 0.2 --show "$work/slow.txt"
# The order of gravity: turned down, not finished, not read.
due 6 "$linkcheck" --timeout 0.2 "$none" "$work/slow.txt" "$bad"
due 3 "$linkcheck" --timeout 0.2 "$work/slow.txt" "$work/missing"
due 6 "$linkcheck" --timeout 0.000001 "$good"
due 6 "$linkcheck" --timeout 0.2 --duty "$work/slow.txt" "$good" "$work/slow.txt"
counts "2 tables: 0 accepted, 0 failed, 0 turned down, 1 with another duty, 1 not finished"
# A table that fails in its first state, but where it takes long to look for the run there.
{
    printf '1 256 255\n1 256 255\n2 1 0\n3 0 1 10 0 0 6 12 1 1 0 0 5 3 1 0 0 255 0 256 1 0 5 3 1 1 0 255 0 256\n'
    sed '1,3d; /^     3    32 /d' "$work/slow.txt"
} | "$plain" --columns > "$work/far.txt"
began=$(now)
due 1 "$linkcheck" --timeout 0.5 "$work/far.txt"
took 400 9000 "the search for a run"
grep -q '^[^ ]*  failed: criterion 5 (measure), state 0 = (0, 0), ' "$work/out" || fail "far.txt: $(cat "$work/out")"
if grep -q -e 'reached' -e 'no run' "$work/out"; then fail "a run that was not found is told of: $(cat "$work/out")"; fi
for number in "" 0 0.0 -1 x 1x 1e3 . inf nan 0x1 1.2.3 " 1"; do due 64 "$linkcheck" --timeout "$number" "$good"; done
due 64 "$linkcheck" --timeout
for look in --dot --measure --mark --walk; do due 64 "$linkcheck" --timeout 1 $look "$good"; done

# ---- several processes ----

# Nine slow tables have their time at the same time.
began=$(now)
due 6 "$linkcheck" --timeout 1 -j 9 "$work/slow.txt"{,,,,,,,,}
took 1000 6000 "nine slow tables in nine processes"
# The process of a slow table is killed: the others go on, and have done all the rest before.
"$linkcheck" --jobs=2 "$work/slow.txt" "$good"{,,,,,,,} "$bad" > "$work/out" 2> "$work/error" < /dev/null &
first=$!
children() { ps -A -o pid= -o ppid= | awk -v parent="$1" '$2 == parent { print $1 }'; }
running() { case $(ps -o stat= -p "$1" || true) in "" | Z*) return 1 ;; esac; }
busy=()
for ((tries = 0; tries < 200; tries++)); do
    mapfile -t workers < <(children "$first")
    busy=()
    for worker in "${workers[@]}"; do if running "$worker"; then busy+=("$worker"); fi; done
    if [ "${#workers[@]} ${#busy[@]}" = "2 1" ]; then break; fi
    sleep 0.05
done
[ "${#busy[@]}" = 1 ] || fail "${#busy[@]} processes at work: the slow table holds the others back"
kill -KILL "${busy[0]}"
got=0
wait "$first" || got=$?
first=
[ "$got" = 3 ] || fail "a killed process: status $got"
said "linkcheck: $work/slow.txt: not checked, as the process for it failed"
[ "$(grep -c "^$good  accepted$" "$work/out")" = 8 ] || fail "a killed process: $(cat "$work/out")"
counts "9 tables: 8 accepted, 1 failed, 0 turned down; 1 not read"
for jobs in "--jobs 3" --jobs=3 -j3 "-j 3"; do
    # shellcheck disable=SC2086
    due 2 "$linkcheck" $jobs "$tables"
    # shellcheck disable=SC2086
    due 2 "$linkcheck" $jobs --report "$tables"
    sort compare/reports.tsv | cut -f 2 | cmp - "$work/out" || fail "$jobs --report differs from compare/reports.tsv"
done
for jobs in "--jobs 0" --jobs= --jobs=257 --jobs=x --jobsx=2; do
    # shellcheck disable=SC2086
    due 64 "$linkcheck" $jobs "$good"
done

# ---- at a terminal ----

at_terminal() { linkcheck/test/terminal.py "$@" > "$work/shown" || [ $? -le 6 ] || fail "$*: status $?"; }
progress='linkcheck: [^ ]*slow\.txt: [0-9,]* of 65,536 states'
began=$(now)
at_terminal 2 "$linkcheck" --timeout 2.5 "$work/slow.txt"
seconds=$((($(now) - began) / 1000000000))
shown=$(grep -oa "$progress" "$work/shown" | wc -l)
if [ "$shown" -lt 1 ] || [ "$shown" -gt "$seconds" ]; then fail "progress $shown times in $seconds s: $(cat -v "$work/shown")"; fi
at_terminal 2 "$linkcheck" --timeout 2.5 -j 2 "$good" "$work/slow.txt" "$good"
grep -qa 'linkcheck: 2 of 3 tables, [^ ]*slow\.txt: [0-9,]* of 65,536 states' "$work/shown" || fail "progress with -j 2: $(cat -v "$work/shown")"
at_terminal 2 "$linkcheck" "$tables"
at_terminal 1 "$linkcheck" --timeout 1.5 "$work/slow.txt"
if grep -qa "$progress" "$work/shown"; then fail "progress elsewhere than at a terminal"; fi
# Colours: at a terminal, or if they are asked for.
coloured=$'\e[32maccepted\e[0m'
at_terminal 1 "$linkcheck" "$good"
grep -qaF "$good  $coloured" "$work/shown" || fail "no colours at a terminal: $(cat -v "$work/shown")"
NO_COLOR=1 at_terminal 1 "$linkcheck" "$good"
if grep -qaF $'\e' "$work/shown"; then fail "colours with NO_COLOR"; fi
NO_COLOR='' at_terminal 1 "$linkcheck" "$good"
grep -qaF "$coloured" "$work/shown" || fail "no colours with an empty NO_COLOR"
for options in --color=never --json --report; do
    at_terminal 1 "$linkcheck" $options "$good"
    if grep -qaF $'\e' "$work/shown"; then fail "colours with $options"; fi
done
due 2 "$linkcheck" "$tables" examples
cp "$work/out" "$work/plain"
if grep -qaF $'\e' "$work/out"; then fail "colours elsewhere than at a terminal"; fi
NO_COLOR=1 due 2 "$linkcheck" --color=always -j 2 "$tables" examples
[ "$(grep -caF $'  \e[3' "$work/out")" = $(($(wc -l < "$work/plain") - 1)) ] || fail "lines without a colour"
if grep -avE $'^[^ ]+  \e\\[3[1-5]m(accepted( after a first internal step)?|failed|turned down)\e\\[0m' "$work/out" | sed '$d' | grep -a .; then
    fail "other words are coloured"
fi
sed $'s/\e\\[[0-9]*m//g' "$work/out" | cmp - "$work/plain" || fail "--color changes the words"
due 64 "$linkcheck" --color=sometimes "$good"

# ---- quiet ----

due 1 "$linkcheck" -q "$good" "$bad" "$after"
[ "$(cut -d ' ' -f 1 "$work/out" | tr '\n' ' ')" = "$bad 3 " ] || fail "-q: $(cat "$work/out")"
counts "3 tables: 1 accepted, 1 accepted after a first internal step, 1 failed, 0 turned down"
due 0 "$linkcheck" -q -j 2 "$good" "$good"
written "2 tables: 2 accepted, 0 failed, 0 turned down"
due 6 "$linkcheck" -q --timeout 0.2 --duty "$work/slow.txt" "$good" "$work/slow.txt" "$none"
[ "$(grep -c -e '  other duty, ' -e '  not finished: ' -e '  turned down ' "$work/out")" = 3 ] || fail "-q: $(cat "$work/out")"
due 64 "$linkcheck" -q --report "$good"
due 64 "$linkcheck" -q --show "$good"
due 0 "$linkcheck" -h
cp "$work/out" "$work/help"
due 0 "$linkcheck" --help
cmp "$work/help" "$work/out" || fail "-h is not --help"
while read -r option; do
    grep -qF -e "$option" "$work/help" || fail "--help does not tell of $option"
done < <(grep -oE '"--?[a-z-]+"' linkcheck/main.c | tr -d '"' | grep -vx -e --)

# ---- JUnit ----

odd=$work/odd$'\e\n"<&>\303\251\377'.txt
cp "$bad" "$odd"
mkdir "$work/suites"
suite=$work/suites/suite.xml
# suite_is FAILURES ERRORS: what is in the file is a suite of the lines that were written.
suite_is() {
    python3 - "$suite" "$work/out" "$@" << 'END' || fail "the suite: $(cat "$suite")"
import sys, xml.etree.ElementTree as tree
name, out, failures, errors = sys.argv[1:]
root = tree.parse(name).getroot()
suite, = root
cases = list(suite)
kinds = {'accepted': None, 'failed': 'failure', 'other duty': 'failure', 'turned down': 'failure', 'not finished': 'error'}
told = 0
with open(out, encoding='utf-8') as file: lines = dict(line[:-1].split('  ', 1) for line in file if '  ' in line)
for case in cases:
    problem = case[0] if len(case) else None
    if problem is not None and problem.tag == 'error' and problem.get('type') == 'not read': continue
    words = lines[case.get('name')]
    kind, = (kinds[word] for word in kinds if words.startswith(word))
    if kind is None:
        assert problem is None and words == 'accepted' or problem.tag == 'system-out' and problem.text == words, words
    else:
        assert problem.tag == kind and problem.get('message') == words and words.startswith(problem.get('type')), words
    told += 1
assert root.tag == 'testsuites' and suite.tag == 'testsuite' and all(case.tag == 'testcase' for case in cases)
assert told == len(lines) and told > 0
assert [suite.get('tests'), suite.get('failures'), suite.get('errors')] == [str(len(cases)), failures, errors], suite.attrib
assert [len(suite.findall('*/failure')), len(suite.findall('*/error'))] == [int(failures), int(errors)]
END
    [ "$(ls "$work/suites")" = suite.xml ] || fail "something is left beside the suite: $(ls "$work/suites")"
}
for jobs in 1 3; do
    due 3 "$linkcheck" -j $jobs --junit "$suite" --timeout 0.2 --duty "$good" "$good" "$bad" "$other" "$none" "$work/missing" "$after" "$odd"
    suite_is 4 1
    due 6 "$linkcheck" -j $jobs --timeout 0.2 --junit="$suite" "$work/slow.txt" "$good"
    suite_is 0 1
    due 0 "$linkcheck" -j $jobs --junit "$suite" "$good"
    suite_is 0 0
done
cp "$suite" "$work/before.xml"
# Written whole or not at all, whichever call goes wrong; a suite that was there stays then.
${CC:-cc} -std=c11 -Wall -Wextra -O2 -fPIC -shared linkcheck/test/faults.c -o "$work/faults.so" -ldl
for fault in "write 28" "close 5" "fsync 28" "rename 13" "open 28" "malloc 12" "realloc 12"; do
    read -r call how <<< "$fault"
    failed=0
    for ((at = 1; at <= 40; at++)); do
        cp "$work/before.xml" "$suite"
        got=0
        : > "$work/reached"
        LD_PRELOAD=$work/faults.so FAULT_CALL=$call FAULT_AT=$at FAULT_HOW=$how FAULT_REACHED=$work/reached \
            "$plain" --junit "$suite" "$bad" "$after" > "$work/out" 2> "$work/error" || got=$?
        if [ "$got" = 1 ]; then suite_is 1 0
        elif [ "$got" != 3 ] || ! [ -s "$work/error" ]; then fail "$fault at $at: status $got"
        elif cmp -s "$suite" "$work/before.xml"; then failed=$((failed + 1)); fi
        [ "$(ls "$work/suites")" = suite.xml ] || fail "$fault at $at: something is left beside the suite: $(ls "$work/suites")"
        python3 -c 'import sys, xml.etree.ElementTree as tree; tree.parse(sys.argv[1])' "$suite" || fail "$fault at $at: half a suite"
        if ! [ -s "$work/reached" ]; then break; fi
    done
    [ "$failed" -gt 0 ] || fail "$fault: no run where the suite was not written"
done
due 3 "$linkcheck" --junit "$work/nowhere/suite.xml" "$good"
said "linkcheck: $work/nowhere/suite.xml: No such file or directory"
written "$good  accepted
1 table: 1 accepted, 0 failed, 0 turned down"
# What is no file is not replaced by one.
mkfifo "$work/suites/pipe"
for name in "$work/suites/pipe" "$work/suites"; do
    due 3 "$linkcheck" --junit "$name" "$good"
    said "linkcheck: $name: File exists"
done
[ -p "$work/suites/pipe" ] || fail "a pipe is replaced by a suite"
for options in --json --report --show "--dot"; do due 64 "$linkcheck" --junit "$suite" $options "$good"; done
echo "linkcheck store: the duty, long checks, processes, terminals and suites, $checked: no fault"
