#!/usr/bin/env bash
# Times linkcheck over many small tables: copies of the pump table and its nine changes. Usage: many.sh [COUNT]
set -euo pipefail
cd "$(dirname "$0")/.."
count=${1:-10000}
linkcheck/build.sh
store=$(mktemp -d)
trap 'rm -rf "$store"' EXIT
tables=(compare/tables/P_*.txt)
for ((i = 0; i < count; i++)); do
    table=${tables[i % ${#tables[@]}]}
    printf '%s\n' "$(< "$table")" > "$store/$i.txt"
done
for jobs in 1 2; do
    echo "linkcheck -j $jobs"
    time { target/bin/linkcheck -j "$jobs" "$store" || [ $? = 1 ]; } | tail -n 1
done
