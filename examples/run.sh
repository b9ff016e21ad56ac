#!/usr/bin/env bash
# Checks every table of examples/ with ./check and with the C program buy, and compares with reports.tsv, byte for byte, and their exit
# statuses with the verdict; gives each table marks by the C program marks; and makes a measure for it by the C program measure, which is
# compared with measures.tsv, as is the message where it makes none; and is checked by advances by the C program progress. Ends with 1 if any
# differs.
set -euo pipefail
cd "$(dirname "$0")/.."
program=target/bin/check_table
[ -x "$program" ] || { echo "examples: $program isn't built yet; ./check examples/pump.txt builds it" >&2; exit 1; }

libraries=(target/staticlib/lib{checker,conversion,measuring,lent_desk}.a)
tools/library.sh checker conversion measuring lent_desk
work=$(mktemp -d)
trap 'rm -rf "$work"' EXIT
for example in buy marks measure progress; do
    ${CC:-cc} -std=c11 -Wall -Wextra -Iinclude "examples/$example.c" "${libraries[@]}" -o "$work/$example"
done
count=0
differ=0
for file in examples/*.txt; do
    name=$(basename "$file" .txt)
    status=0
    ./check "$file" > "$work/got" 2> "$work/said" || status=$?
    awk -F '\t' -v name="$name" '$1 == name { print $2 }' examples/reports.tsv > "$work/want"
    if ! cmp -s "$work/got" "$work/want" || [ "$status" != "$(awk '{ print $1 }' "$work/want")" ]; then
        echo "examples: $name: ./check writes \"$(cat "$work/got")\" and ends with $status, the report is \"$(cat "$work/want")\""
        differ=1
    fi
    case $status in
    0) due="check: accepted as it is" ;;
    1) due="check: failed: criterion " ;;
    2) due="check: turned down by " ;;
    3) due="check: accepted after a first internal step" ;;
    *) due="words" ;;
    esac
    grep -q "^$due" "$work/said" || { echo "examples: $name: ./check says \"$(cat "$work/said")\", not \"$due\""; differ=1; }
    case $status in
    0) due="buy" ;;
    3) due="buy, but not under a choice" ;;
    *) due="do not buy" ;;
    esac
    bought=0
    "$work/buy" "$file" > "$work/got" || bought=$?
    if ! { printf '%s: ' "$due"; cat "$work/want"; } | cmp -s - "$work/got" || [ "$bought" != "$status" ]; then
        echo "examples: $name: buy writes \"$(cat "$work/got")\" and ends with $bought"
        differ=1
    fi
    case $(tail -n 1 "$file") in
    "     8"*) due="the same report; marks other than 10 stay" ;;
    *) due="the same report; the same text again" ;;
    esac
    [ "$("$work/marks" "$file")" = "$due" ] || { echo "examples: $name: marks doesn't write \"$due\""; differ=1; }
    due=$(awk -F '\t' -v name="$name" '$1 == name { print $2 }' examples/measures.tsv)
    [ "$("$work/measure" "$file" 2>&1)" = "$due" ] || { echo "examples: $name: measure doesn't write \"$due\""; differ=1; }
    due=$(awk -F '\t' -v name="$name" '$1 == name { split($2, n, " "); printf "verdict %d, criterion %d, state %d, row %d, sum value %d", n[1], n[2], n[3], n[4], n[5] }' examples/reports.tsv)
    advanced=0
    "$work/progress" "$file" > "$work/got" 2> "$work/said" || advanced=$?
    if [ "$(cat "$work/got")" != "$due" ] || [ "$advanced" != "$status" ] || ! grep -q "states examined" "$work/said"; then
        echo "examples: $name: progress writes \"$(cat "$work/got")\" and ends with $advanced"
        differ=1
    fi
    count=$((count + 1))
done
# Where losing is marked too, there is a loop.
status=0
sed '$d' examples/retry.txt | "$work/measure" /dev/stdin > "$work/got" || status=$?
if [ "$status" != 1 ] || [ "$(cat "$work/got")" != "no measure: state 4 is on a loop" ]; then
    echo "examples: measure ends with $status and writes \"$(cat "$work/got")\" for a loop"
    differ=1
fi
# What can't be written is an error, and no verdict.
if [ -c /dev/full ]; then
    for example in buy marks measure; do
        status=0
        "$work/$example" examples/pump.txt > /dev/full 2> /dev/null || status=$?
        [ "$status" = 65 ] || { echo "examples: $example ends with $status on a full disk"; differ=1; }
    done
fi
# Each report and each measure has its table.
while IFS=$'\t' read -r name _; do
    [ -f "examples/$name.txt" ] || { echo "examples: $name: a report or a measure without a table"; differ=1; }
done < <(cat examples/reports.tsv examples/measures.tsv)
[ "$differ" = 0 ] || exit 1
echo "examples: $count tables, by ./check, buy, marks and measure: no difference"
