#!/bin/sh
# Times the evaluator against the same recursion in plain C (gcc -O3), the two in turns in one run.
set -eu
cd "$(dirname "$0")/.."
tools/library.sh eval_c
mkdir -p target/bench
gcc -O3 -c bench/plain.c -o target/bench/plain.o
gcc -O3 bench/terms.c target/bench/plain.o target/staticlib/libeval_c.a -o target/bench/terms
target/bench/terms
