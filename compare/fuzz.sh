#!/usr/bin/env bash
# Compares the checker with the one in compare/reference over texts made from a seed: random designs with and without marks, those that
# divide by what can be 0, changed ones and damaged texts. First check_design, mark_design, unmark_design and measure_design from C, with
# buffers and slices of several lengths and every place of them, then lists of desk calls. Needs cargo and a C compiler.
# Usage: fuzz.sh [COUNT [SEED]]
set -euo pipefail
cd "$(dirname "$0")/.."
count=${1:-100000}
seed=${2:-$(date +%s)}
work=$(mktemp -d)
trap 'rm -rf "$work"' EXIT
tools/library.sh checker conversion measuring
tools/program.sh desk_calls
compare/reference_c/build.sh
${CC:-cc} -std=c11 -O2 -Wall -Wextra compare/fuzz.c target/staticlib/lib{checker,conversion,measuring}.a \
    target/reference/release/libreference_c.a -lpthread -ldl -lm -o "$work/fuzz"
echo "fuzz: seed $seed; again with: compare/fuzz.sh $count $seed"
# Tables of many states take the reference long; compare/run.sh has them.
mapfile -t tables < <(printf '%s\n' compare/tables/*.txt | grep -Ev '/(t5_size|s_[0-9]|r_s_)')
"$work/fuzz" "$count" "$seed" "$work/calls" "$work/due" "${tables[@]}"
target/bin/desk_calls < "$work/calls" > "$work/answers"
cmp "$work/due" "$work/answers" || { diff "$work/due" "$work/answers" | head -n 4 || true; exit 1; }
echo "fuzz: $(wc -l < "$work/due") desk calls: no difference"
sed -E '/^turned/!s/ .*//' "$work/due" | sort | uniq -c | sed 's/^ */fuzz: /'
