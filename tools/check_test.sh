#!/usr/bin/env bash
# Tries ./check: every way to fail that isn't a verdict has a message and a status of its own. It runs in a folder of its own, with stand-ins
# for the program and for rt. Ends with 1 at the first fault. Usage: check_test.sh [CHECK], for another script than ./check.
set -euo pipefail
cd "$(dirname "$0")/.."
check=${1:-check}
work=$(mktemp -d)
trap 'rm -rf "$work"' EXIT
tree=$work/tree
program=$tree/target/bin/check_table
mkdir -p "$tree/tools" "$tree/crates/check_table/src" "$tree/target/bin" "$work/bin"
cp "$check" "$tree/check"
cp tools/rt.sh tools/progress.sh "$tree/tools/"
touch "$tree/crates/check_table/src/source"
printf '%s\n' "# Five crates, and one that is not wanted." low: "middle: low libc" "upper: middle" "side: low" "check_table: upper side # no more" \
    "other staticlib: low" > "$tree/crates.txt"
echo "a table" > "$work/table"
path=$PATH
tried=0

fail() {
    echo "check test: $*" >&2
    exit 1
}
# due STATUS MESSAGE ARGUMENTS...: how ./check ends, what is on standard error, and nothing on standard output unless there is a verdict.
due() {
    local status=$1 message=$2 got=0
    shift 2
    PATH=$path "$tree/check" "$@" > "$work/out" 2> "$work/error" || got=$?
    ended "$status" "$message" "$*"
    [ "$status" -le 3 ] || [ ! -s "$work/out" ] || fail "$*: \"$(cat "$work/out")\" without a verdict"
}
ended() {
    tried=$((tried + 1))
    [ "$got" = "$1" ] || fail "$3: status $got, $1 is due: $(cat "$work/out" "$work/error")"
    if [ -z "$2" ]; then
        [ ! -s "$work/error" ] || fail "$3: $(cat "$work/error")"
    else
        grep -qF -e "$2" "$work/error" || fail "$3: \"$2\" is due on standard error: $(cat "$work/error")"
    fi
}
# The program that does this.
stand_in() {
    printf '#!/usr/bin/env bash\ncat > /dev/null\n%s\n' "$1" > "$program"
    chmod +x "$program"
}

# Verdicts: the report's bytes as they are, and words on standard error.
while IFS=: read -r report words; do
    stand_in "printf '%s\n' '$report'"
    due "${report:5:1}" "check: ${words# }" "$work/table"
    printf '%s\n' "$report" | cmp - "$work/out"
    printf 'check: %s\n' "${words# }" | cmp - "$work/error"
done << END
     0     0     0     0     0: accepted as it is
     1     8 65535    32   255: failed: criterion 8 (data), state 65535, row 32, sum value 255
     1     1     7     0     0: failed: criterion 1 (start), state 7
     1    10    33     0     0: failed: criterion 10 (values), state 33
     1     3     0     1     0: failed: criterion 3 (invariant), state 0, row 1, sum value 0
     2     4     0     0     0: turned down by 4 (kinds of lines)
     2     7     0     0     0: turned down by 7 (actions)
     3     0     0     0     0: accepted after a first internal step
END
for closed in '2>&-' '2> /dev/full'; do
    got=0
    eval "\"$tree/check\" \"$work/table\" > \"$work/out\" $closed" || got=$?
    if [ "$got" != 3 ] || [ "$(wc -c < "$work/out")" != 31 ]; then fail "words that can't be written, $closed: status $got"; fi
done

# No report: nothing, too little, too much, other bytes, other verdicts, a program that fails or is killed.
for bytes in '' '\n' '     0' '     0     0     0     0     0' '     0     0     0     0     0\n\n' '     0     0     0     0     0\n     0     0     0     0     0\n' \
    '                              \n' '     4     0     0     0     0\n' '    10     0     0     0     0\n' '     0    00     0     0     0\n' \
    '     0     0     0     0     -\n' '     0     0     0     0\n' '0 0 0 0 0\n' '     0     0\0     0     0     0\n' '     0     0     0     0     0\0' \
    'reading failed\n' '     9 not read               \n' '     0     0     0     0     0\r\n' '0     0     0     0     0     \n' '     0     0     0     0      \n'; do
    stand_in "printf '$bytes'"
    due 71 "what the program wrote is no report" "$work/table"
done
stand_in "echo 'check_table: reading failed' >&2"
due 71 "check_table: reading failed" "$work/table"
stand_in "printf '     0     0     0     0     0\n'; exit 5"
due 71 "the program ended with status 5 and no report" "$work/table"
stand_in "printf '     0     0     0     0     0\n'; kill -KILL \$\$"
due 71 "the program ended with status 137 and no report" "$work/table"

# The report can't be written.
stand_in "printf '     0     0     0     0     0\n'"
if [ -c /dev/full ]; then
    got=0
    "$tree/check" "$work/table" > /dev/full 2> "$work/error" || got=$?
    ended 74 "the report can't be written" "a full disk"
fi
got=0
"$tree/check" "$work/table" 2> "$work/error" >&- || got=$?
ended 74 "the report can't be written" "standard output closed"

# Arguments and files. A name is shown so that it can't be taken for anything else.
due 64 "usage: ./check FILE"
due 64 "usage: ./check FILE" "$work/table" "$work/table"
due 66 "$work is a folder" "$work"
due 66 "$work/missing is not there" "$work/missing"
due 66 "is not there" "$work/"$'\e[31m\n\233'
if grep -q $'[\e\233]' "$work/error" || [ "$(wc -l < "$work/error")" != 1 ]; then fail "an odd name: $(od -c "$work/error")"; fi
chmod 000 "$work/table"
if [ ! -r "$work/table" ]; then due 66 "$work/table can't be read" "$work/table"; fi
chmod 600 "$work/table"

for closed in '2>&-' '2> /dev/full' '<&- >&- 2>&-'; do
    got=0
    eval "\"$tree/check\" \"$work/missing\" > /dev/null $closed" || got=$?
    [ "$got" = 66 ] || fail "a message that can't be written, $closed: status $got"
done

# Building: without rt; with one that fails, that makes nothing, and that makes the program; and only where that is needed.
for tool in bash cat cp dirname env find mkdir mktemp rm sed sleep tail tee tr; do ln -s "$(command -v $tool)" "$work/bin/$tool"; done
path=$work/bin
as_rt() {
    printf '#!/usr/bin/env bash\n%s\n' "$1" > "$work/bin/rt"
    chmod +x "$work/bin/rt"
}
mv "$program" "$work/program"
due 70 "rt, the Rattle toolchain, is not found" "$work/table"
due 70 "check: the program can't be built" "$work/table"
as_rt "echo 'rt: one crate of two'; echo 'error: a promise is not kept' >&2; exit 1"
due 70 "error: a promise is not kept" "$work/table"
due 70 "rt: one crate of two" "$work/table"
due 70 "check: the program can't be built" "$work/table"
as_rt "kill -KILL \$\$"
due 70 "check: the program can't be built" "$work/table"
as_rt "exit 0"
due 70 "check: the program can't be built" "$work/table"
# How far it has come, by rt's lines: those on crates that are wanted and begun go, the others are shown.
as_rt "echo 'rt: low: begins with what a check kept in /there'; echo 'rt: chose --jobs 1 for low'; sleep 0.3; echo 'rt: chose --jobs 2 for middle'
    sleep 0.3; echo 'rt: chose --jobs 2 for upper'; echo 'rt: chose --jobs 1 for side'; sleep 0.3
    echo 'error: why'; echo 'rt: the library side did not build, so nothing above it was checked'; exit 1"
due 70 "check: proving, 5 of 5 crates left, some minutes" "$work/table"
due 70 "check: proving, 4 of 5 crates left, some minutes" "$work/table"
due 70 "check: proving, 2 of 5 crates left, about " "$work/table"
due 70 "rt: the library side did not build" "$work/table"
due 70 "error: why" "$work/table"
if grep -qE "rt: (chose|low: begins)" "$work/error"; then fail "lines on crates that are begun are shown: $(cat "$work/error")"; fi
# What was proved earlier has no line.
as_rt "echo 'rt: chose --jobs 1 for side'; sleep 0.3; echo 'rt: chose --jobs 1 for other'; exit 1"
due 70 "rt: chose --jobs 1 for other" "$work/table"
due 70 "check: proving, 2 of 5 crates left, some minutes" "$work/table"
mv "$tree/tools/progress.sh" "$work/"
due 70 "rt: chose --jobs 1 for side" "$work/table"
mv "$work/progress.sh" "$tree/tools/"
as_rt "[ \"\$*\" = run ] && [ \"\${PWD##*/}\" = check_table ] && mkdir -p out && cat '$work/program' > out/check_table &&
    '$(command -v chmod)' +x out/check_table && echo built >> '$work/built'"
due 0 "check: proving, 5 of 5 crates left, some minutes" "$work/table"
due 0 "check: accepted as it is" "$work/table"
if grep -q proving "$work/error"; then fail "proved again"; fi
[ -z "$(find "$tree/target" -mindepth 2 ! -name check_table)" ] || fail "more than the program is made"
# What rt keeps is no source; a file that is newer is one.
touch "$tree/crates/check_table/out/kept"
due 0 "check: accepted as it is" "$work/table"
if grep -q proving "$work/error"; then fail "proved again for what rt keeps"; fi
touch -t 200001010000 "$program"
due 0 "check: proving" "$work/table"
[ "$(wc -l < "$work/built")" = 2 ] || fail "built $(wc -l < "$work/built") times, not twice"
rm -r "$tree/crates"
due 70 "the sources of the program can't be looked at" "$work/table"

echo "check: $tried runs of ./check with stand-ins: no fault"
