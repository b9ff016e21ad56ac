#!/usr/bin/env bash
# Compares the checker with the stored reports of compare/reports.tsv: each table by check_table, and by desk_calls in five divisions of
# its states, every answer of every call; then with the stored measures of compare/measures.tsv, by desk_calls. Ends with 1 at the first
# difference. compare/remake.sh makes what is stored.
# Usage: run.sh [MOST]. A division that takes more than MOST advances, 5,000 if not given, is left out; 70000 leaves out none.
set -euo pipefail
cd "$(dirname "$0")/.."
divisions="1 5 7 1000 18446744073709551615"
most_calls=${1:-5000}

work=$(mktemp -d)
trap 'rm -rf "$work"' EXIT
tools/program.sh check_table desk_calls

# The one-call check: every report, and then which of them differs, if one does.
while IFS=$'\t' read -r name _; do target/bin/check_table < "compare/tables/$name.txt"; done < compare/reports.tsv > "$work/reports"
if ! cut -f 2 compare/reports.tsv | cmp -s - "$work/reports"; then
    while IFS=$'\t' read -r name report; do
        got=$(target/bin/check_table < "compare/tables/$name.txt" | od -An -c)
        want=$(printf '%s\n' "$report" | od -An -c)
        if [ "$got" != "$want" ]; then
            echo "compare: $name: check_table writes$got"
            echo "compare: $name: the report is$want"
            exit 1
        fi
    done < compare/reports.tsv
    exit 1
fi
count=$(wc -l < compare/reports.tsv)
tables=$(find compare/tables -type f | wc -l)
[ "$count" = "$tables" ] || { echo "compare: $tables tables, but $count reports"; exit 1; }

# A line for each list of calls: table, bytes, n, how many advances, how many states are examined, and the report.
join -t "$(printf '\t')" \
    <(cd compare/tables; wc -c ./*.txt | awk '$2 != "total" { sub("^./", "", $2); sub(".txt$", "", $2); print $2 "\t" $1 }' | LC_ALL=C sort) \
    <(LC_ALL=C sort compare/reports.tsv) |
    LC_ALL=C awk -F '\t' -v divisions="$divisions" -v most="$most_calls" '
        function states(name,    file, line, product) {
            file = "compare/tables/" name ".txt"
            product = 1
            while ((getline line < file) > 0 && substr(line, 1, 6) == "     1") product *= substr(line, 7, 6)
            close(file)
            return product
        }
        {
            split($3, r, " ")
            examined = r[1] == 2 || (r[1] == 1 && r[2] == 1) ? 0 : r[1] == 1 ? r[3] + 1 : states($1)
            k = split(divisions, n, " ")
            for (i = 1; i <= k; i++) {
                calls = examined / n[i]
                calls = calls == int(calls) ? calls : int(calls) + 1
                if (calls <= most) print $1, $2, n[i], (calls > 1 ? calls : 1) + 1, examined, r[1], r[2], r[3], r[4], r[5]
            }
        }' > "$work/plan"

# The lists of calls as one, and the answers that are due.
python3 - "$work/plan" << 'END' | target/bin/desk_calls > "$work/answers"
import sys
for line in open(sys.argv[1]):
    name, size, n, calls, *_ = line.split()
    with open('compare/tables/%s.txt' % name, 'rb') as table:
        sys.stdout.buffer.write(b'load %b\n%b\n%bverdict\ndrop\n' % (size.encode(), table.read(), b'advance %b\n' % n.encode() * int(calls)))
END
awk '
    function due(words) { print words "\t" $1 " by " $3 }
    function end(verdict) { return verdict == 0 ? "accepted" : verdict == 3 ? "accepted3" : "failed" }
    $6 == 2 { due("turned down " $7); for (i = 0; i < $4 + 2; i++) due("turned down 11"); next }
    {
        due("load 0")
        left = $5
        decided = 0
        for (i = 0; i < $4; i++) {
            if (decided) { due("turned down 14"); continue }
            decided = left <= $3 + 0
            here = decided ? left : $3
            left -= here
            due((decided ? end($6) : "open") " " here)
        }
        due("verdict " $6 " " $7 " " $8 " " $9 " " $10)
        due("drop 0")
    }' "$work/plan" > "$work/due"
if ! cut -f 1 "$work/due" | cmp -s - "$work/answers"; then
    paste "$work/due" "$work/answers" | awk -F '\t' '$1 != $3 { print "compare: " $2 ": \"" $1 "\" is due, desk_calls writes \"" $3 "\""; exit }' || true
    exit 1
fi
lists=$(wc -l < "$work/plan")
echo "compare: $count tables, $lists lists of desk calls with $(wc -l < "$work/answers") answers: no difference; $((count * 5 - lists)) lists left out as too long"

# The measures: no slice long enough, then just long enough; longer ones in the middle of the walk and after it.
echo 'measure 4' > "$work/calls"
while IFS=$'\t' read -r name states _; do
    text=$(< "compare/tables/$name.txt")
    printf 'load %s\n%s\n\nmeasure %s\nmeasure %s\n' $((${#text} + 1)) "$text" $((states - 1)) "$states"
    printf 'advance 1\nmeasure %s\nadvance 65536\nverdict\nmeasure %s\ndrop\n' $((states + 3)) $((states + 300))
done < compare/measures.tsv >> "$work/calls"
target/bin/desk_calls < "$work/calls" > "$work/answers"
awk -F '\t' '
    function due(words) { print words "\t" $1 }
    function measure(more,    words, i) {
        words = $3
        if (words ~ /^loop/) for (i = 0; i < $2; i++) words = words " 0"
        if (words !~ /^turned/) for (i = 0; i < more; i++) words = words " 65535"
        due(words)
    }
    BEGIN { print "turned down 11\tthe empty desk" }
    FNR == NR { report[$1] = $2; next }
    {
        split(report[$1], r, " ")
        end = r[1] == 0 ? "accepted" : r[1] == 3 ? "accepted3" : "failed"
        examined = r[1] != 1 ? $2 : r[2] == 1 ? 0 : r[3] + 1
        due("load 0")
        due("turned down 17")
        measure(0)
        due(examined > 1 ? "open 1" : end " " examined)
        measure(3)
        due(examined > 1 ? end " " examined - 1 : "turned down 14")
        due("verdict " r[1] + 0 " " r[2] + 0 " " r[3] + 0 " " r[4] + 0 " " r[5] + 0)
        measure(300)
        due("drop 0")
    }' compare/reports.tsv compare/measures.tsv > "$work/due"
# Of a loop any of the states that are listed may be named.
paste "$work/due" "$work/answers" | awk -F '\t' '
    function is_due(due, got,    d, g) {
        if (due !~ /^loop/) return due == got
        split(due, d, " ")
        split(got, g, " ")
        return g[1] == "loop" && index("," d[2] ",", "," g[2] ",") && substr(due, 6 + length(d[2])) == substr(got, 6 + length(g[2]))
    }
    NF != 3 || !is_due($1, $3) { print "compare: " $2 ": \"" $1 "\" is due, desk_calls writes \"" $3 "\""; exit 1 }'
echo "compare: $(wc -l < compare/measures.tsv) measures, $(wc -l < "$work/answers") answers: no difference"
