#!/usr/bin/env bash
# Makes the tables of tables.py and what is stored of them anew, from the checker of compare/reference at the level of compare/level:
#   compare/reports.tsv    a line for each table: its name and its report
#   compare/measures.tsv   a line for each table that loads, has an internal row and at most 400 states: its name, the number of states, and the
#                          answer to a measure call; for a loop all states that may be named, those that the judge takes for one on a loop
# Needs cargo and python3.
set -euo pipefail
cd "$(dirname "$0")/.."
level=$(< compare/level)
python3 compare/tables.py compare/tables
cargo build --quiet --release --offline --manifest-path compare/reference/Cargo.toml --target-dir target/reference
reference() { target/reference/release/reference-checker --level "$level" "$@"; }
for table in compare/tables/*.txt; do
    name=${table##*/}
    printf '%s\t' "${name%.txt}"
    reference < "$table"
done > compare/reports.tsv
answer=$(mktemp)
trap 'rm -f "$answer"' EXIT

# The states of a table with so many that are on a loop, with commas between.
on_loops() {
    local zeros state list=
    zeros=$(printf ' 0%.0s' $(seq "$2"))
    for state in $(seq 0 $(($2 - 1))); do
        echo "loop $state$zeros" > "$answer"
        if reference --judge "$answer" < "$1" > /dev/null; then list+=,$state; fi
    done
    echo "${list#,}"
}

while IFS=$'\t' read -r name report; do
    table=compare/tables/$name.txt
    if [[ $report == '     2'* ]] || ! grep -q '^     3     0' "$table"; then continue; fi
    states=$(awk 'BEGIN { n = 1 } /^     1/ { n *= substr($0, 7, 6) } END { print n }' "$table")
    [ "$states" -le 400 ] || continue
    made=$(reference --measure < "$table")
    if [[ $made == loop* ]]; then made="loop $(on_loops "$table" "$states")"; fi
    printf '%s\t%s\t%s\n' "$name" "$states" "$made"
done < compare/reports.tsv > compare/measures.tsv
echo "remake: $(wc -l < compare/reports.tsv) reports and $(wc -l < compare/measures.tsv) measures at level $level"
