#!/usr/bin/env bash
# Tries typed tables, and the places of faults: texts typed anew with any blanks and comments have the verdicts, the words and the other
# looks that they have in columns, with their own lines; the lines that show a fault are those that test/faults.py finds. Ends with 1 at the
# first fault.
# Usage: test_typed.sh SEED FOLDER..., folders with texts that are tables and texts that are none.
# shellcheck disable=SC2016
set -euo pipefail
cd "$(dirname "$0")/.."
export LC_ALL=C
work=$(mktemp -d)
trap 'rm -rf "$work"' EXIT
linkcheck=$PWD/target/bin/linkcheck
seed=$1
shift

fail() {
    echo "linkcheck typed: $*" >&2
    exit 1
}
judged() { [ "$1" -le 2 ] || [ "$1" = 4 ]; }

# ---- texts typed anew ----

mkdir "$work/typed"
mapfile -d '' texts < <(find "$@" -type f -print0 | sort -z)
linkcheck/test/retype.py "$seed" "$work/typed" "${texts[@]}" > "$work/places"
cut -d ' ' -f 1 "$work/places" > "$work/plain_names"
cut -d ' ' -f 2 "$work/places" > "$work/typed_names"
mapfile -t plain < "$work/plain_names"
mapfile -t typed < "$work/typed_names"
# both OPTIONS: what is said of the texts, and with --typed of the files, in $work/plain and $work/said.
both() {
    "$linkcheck" "$@" "${plain[@]}" > "$work/plain" || judged $? || fail "$*: status $?"
    "$linkcheck" --typed "$@" "${typed[@]}" > "$work/said" 2> "$work/error" || judged $? || fail "--typed $*: status $?"
    if [ -s "$work/error" ]; then fail "--typed $*: $(< "$work/error")"; fi
}
both --report
cmp "$work/plain" "$work/said" || fail "a report changes if its text is typed"
both --json
linkcheck/test/retyped.py "$work/places" "$work/plain" "$work/said" || fail "a verdict changes if its text is typed"
both
paste -d ' ' "$work/plain_names" <(sed '$d; s/^[^ ]*  //' "$work/said") | sed 's/ /  /' > "$work/renamed"
# Lines and columns apart, the words are the same.
places() {
    sed -e 's/"\(line\|column\)":[0-9]*//g' -e 's/columns* [0-9]*\( to [0-9]*\)*//g' -e 's/\bline [0-9]*//g' \
        -e 's/(and \(over \)*\([0-9]*\) more: lines*[^;)]*/(and \1\2 more: /' -e 's/^  and lines* [0-9].*/  and lines/' "$1"
}
diff <(sed '$d' "$work/plain" | places -) <(places "$work/renamed") > "$work/difference" || fail "$(head -n 4 "$work/difference")"
"$linkcheck" --typed --json -j 3 "${typed[@]}" > "$work/three" || judged $? || fail "-j 3: status $?"
"$linkcheck" --typed --json "${typed[@]}" > "$work/one" || judged $? || fail "status $?"
cmp "$work/one" "$work/three" || fail "--typed -j 3 differs"
# The other looks at some of them; what names a file is left out.
tried=0
for ((i = seed % 40; i < ${#plain[@]}; i += 40)); do
    for look in --columns --mark --unmark --measure "--measure --json" "--aut impl" "--aut-states spec" --dot --show; do
        for which in plain said; do
            name=${plain[i]} option=
            if [ $which = said ]; then name=${typed[i]} option=--typed; fi
            got=0
            # shellcheck disable=SC2086
            "$linkcheck" $option $look - < "$name" > "$work/look" 2>&1 || got=$?
            { places "$work/look" | sed '/^  label=/d'; echo "status $got"; } > "$work/$which" # a caption has other lines
        done
        if [ "$look" = --columns ] && ! cmp -s "$work/look" "${plain[i]}"; then fail "--columns of ${typed[i]}: not ${plain[i]}"; fi
        cmp "$work/plain" "$work/said" || fail "$look of ${typed[i]} is not that of ${plain[i]}"
        tried=$((tried + 1))
    done
done
[ "$tried" -ge 200 ] || fail "only $tried other looks"

# ---- what is no number ----

# due STATUS OUTPUT ARGUMENTS...: the first line there is this one, by standard input if "-" is given.
due() {
    local status=$1 output=$2 got=0
    shift 2
    "$linkcheck" "$@" < "$work/typed/input" > "$work/out" 2> "$work/error" || got=$?
    [ "$got" = "$status" ] || fail "$*: status $got, $status is due"
    [ "$(head -n 1 "$work/out")$(head -n 1 "$work/error")" = "$output" ] || fail "$*: not \"$output\": $(cat "$work/out" "$work/error")"
}
typed_input() { printf '%b' "$1" > "$work/typed/input"; }
typed_input '1 2 0 # p0\n1 2 p1'
due 2 '-  turned down (typed numbers), line 2, column 5: `p1` is no number from 0 to 65535' --typed -
due 2 '     2     0     0     0     0' --typed --report -
member='"line":2,"column":5,"fault":"`p1` is no number from 0 to 65535","quoted":"p1"'
due 2 "{\"file\":\"-\",\"verdict\":\"turned down\",\"about\":\"typed numbers\",$member,\"faults\":[{$member}]}" --typed --json -
due 2 "{\"file\":\"-\",\"measure\":\"turned down\",\"about\":\"typed numbers\",$member,\"faults\":[{$member}]}" --typed --measure --json -
for look in --mark --unmark --measure --dot "--aut impl" "--aut-states spec" --columns; do
    # shellcheck disable=SC2086
    due 2 'linkcheck: -: turned down (typed numbers), line 2, column 5: `p1` is no number from 0 to 65535' --typed $look -
    [ ! -s "$work/out" ] || fail "$look: written"
done
comment='turned down (typed numbers), line 1, column 7: `#` begins a comment, which is for --typed (and 1 more: line 2)'
due 2 "linkcheck: -: $comment" --columns
for word in 65536 -1 1,2 1.5 0x1 1e3 99999999999999999999 p '\0000' '\0342\0202\0254'; do
    typed_input "1 $word 0\n"
    due 2 "$("$linkcheck" --typed - < "$work/typed/input" | head -n 1)" --typed -
    grep -q '^-  turned down (typed numbers), line 1, column 3: `[^`]*` is no number from 0 to 65535$' "$work/out" ||
        fail "$word: $(cat "$work/out")"
done
typed_input '\t\v\f\r1 00000000000000000000000065535 65534#\n'
due 0 '     1 65535 65534' --typed --columns
typed_input "$(printf 'x %.0s' {1..25})"
due 2 '-  turned down (typed numbers), line 1, column 1: `x` is no number from 0 to 65535 (and 24 more: line 1, ..)' --typed -
"$linkcheck" --typed --show - < "$work/typed/input" > "$work/out" || true
[ "$(wc -l < "$work/out") $(tail -n 1 "$work/out")" = "22   and 5 more" ] || fail "25 words: $(cat "$work/out")"
# A file may be as long as this, and its text as long as any.
head -c 1048576 > "$work/typed/input" < <(yes '#')
due 2 '-  turned down 4 (kinds of lines): no line of kinds 1, 2, 5, 6 and 7' --typed -
echo >> "$work/typed/input"
due 2 '-  turned down (typed numbers): more than 1048576 bytes, blanks and comments among them' --typed -
due 2 'linkcheck: -: turned down (typed numbers): more than 1048576 bytes, blanks and comments among them' --columns
for count in 4096 4097; do
    head -n $count > "$work/typed/input" < <(yes 1)
    due 2 "$("$linkcheck" --typed - < "$work/typed/input" | head -n 1)" --typed -
    grep -q "^-  turned down $((count == 4096 ? 4 : 1)) " "$work/out" || fail "$count lines of 7 bytes: $(head -n 1 "$work/out")"
done
due 2 'linkcheck: -: the columns are more than the 28672 bytes of a table' --columns
"$linkcheck" --typed /dev/zero > "$work/out" && fail "/dev/zero is accepted"

# ---- the lines of faults ----

"$linkcheck" --json --glob '*' "$@" > "$work/json" || judged $? || fail "--json: status $?"
linkcheck/test/faults.py < "$work/json" || fail "a fault is told otherwise"
# In words the first place is the same, and as many more are counted.
"$linkcheck" --glob '*' "$@" | sed '$d' > "$work/words" || true
python3 - "$work/json" "$work/words" << 'END' || fail "a fault is told otherwise in words"
import json, re, sys
for told, words in zip(open(sys.argv[1]), open(sys.argv[2])):
    told = json.loads(told)
    if told['verdict'] != 'turned down': continue
    place = ', line %d' % told['line'] if 'line' in told else ''
    due = '%s  turned down %d (%s)%s: %s' % (told['file'], told['number'], told['about'], place, told['fault'])
    more = len(told['faults']) - 1
    count = re.fullmatch(r' \(and (over )?(\d+) more: .*\)', words[len(due):-1])
    if words[:len(due)] != due or (count and int(count[2]) or 0) != more or bool(count and count[1]) != ('further' in told):
        sys.exit('typed: %s: %s is due' % (words.strip(), due))
END
echo "linkcheck typed: ${#plain[@]} texts typed anew, $tried other looks: no fault"
