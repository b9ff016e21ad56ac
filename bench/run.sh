#!/usr/bin/env bash
# Times check_design, loading, writing with and without marks, advancing and making a measure against the reference checker's release build and
# a plain C walk, a measure also against check_design, in turns in one run, and prints our time over theirs; then check_design against plain C
# on the tables for the walk, with a mean for each group; then what memory the library's functions use. Needs cargo, python3 and a C compiler.
# Usage: run.sh [ROUNDS [walk]]. With `walk` only loading, writing and the tables for the walk are timed.
set -euo pipefail
cd "$(dirname "$0")/.."
out=target/bench
mkdir -p "$out"
for name in checker conversion measuring looking duty lent_desk desk_c; do tools/library.sh $name; done
compare/reference_c/build.sh
python3 bench/tables.py "$out"
libraries=(target/staticlib/lib{checker,conversion,measuring,looking,duty,lent_desk}.a)
flags=(-std=c11 -O3 -Wall -Wextra)
${CC:-gcc} "${flags[@]}" bench/checks.c "${libraries[@]}" target/staticlib/libdesk_c.a target/reference/release/libreference_c.a \
    -lpthread -ldl -lm -o "$out/checks"
tables=("$out"/{[a-z],by_*}.txt examples/{pump,buffer-two,alternating-bit,concurrent-alternating-bit}.txt compare/tables/{abp_marked,cabp_full}.txt
    -- "$out"/{rising,falling,scattered}.txt)
if [ "${2:-}" = walk ]; then tables=(--); fi
"$out/checks" "${1:-5}" "$out"/{limits,room}.txt "${tables[@]}" -- "$out"/{heavy,real,shuffled,opaque,failing,parts}_*.txt
if [ "${2:-}" = walk ]; then exit; fi
${CC:-gcc} "${flags[@]}" bench/stack.c "${libraries[@]}" -o "$out/stack"
"$out/stack" "$out"/{limits,room}.txt compare/tables/*.txt
echo "what the libraries call: $(nm -u "${libraries[@]}" | awk 'NF == 2 { print $2 }' | sort -u | tr '\n' ' ')"
