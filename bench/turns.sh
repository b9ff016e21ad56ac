#!/usr/bin/env bash
# Times check_design and bench_load of this tree and of another, in turns in one process, and prints this one's time over the other's: whether
# a change made checks or loads slower. Tables that divide in all rows come after others, and the tables for the walk last. The other is a
# clone of this repository at some commit. Needs python3 and a C compiler.
# Usage: turns.sh OTHER [ROUNDS]
set -euo pipefail
other=$(cd "${1:?the folder of the other tree}" && pwd)
cd "$(dirname "$0")/.."
out=target/bench
mkdir -p "$out"
python3 bench/tables.py "$out"
for library in checker desk_c; do
    for name in this other; do
        if [ "$name" = this ]; then tree=$PWD; else tree=$other; fi
        "$tree/tools/library.sh" $library
        ${CC:-gcc} -shared -o "$out/$library-$name.so" -Wl,--whole-archive "$tree/target/staticlib/lib$library.a" -Wl,--no-whole-archive
    done
done
${CC:-gcc} -std=c11 -O3 -Wall -Wextra bench/turns.c -ldl -lm -o "$out/turns"
rounds=${2:-12}
turns() { "$out/turns" "$rounds" "$1" "$out/$2-this.so" "$out/$2-other.so" "${@:3}"; }
turns bench_load desk_c "$out"/{blanks,limits,numbers,digits}.txt
turns check_design checker "$out"/[a-z].txt examples/{pump,buffer-two,alternating-bit,concurrent-alternating-bit}.txt
turns check_design checker "$out"/by_*.txt
turns check_design checker "$out"/{heavy,real,shuffled,opaque,failing,parts}_*.txt
