#!/usr/bin/env bash
# Puts each program at target/bin/NAME, if it isn't there or is older than its sources: rt proves, builds and tries it with no input. With
# --built the programs that `rt ci` has built just now are taken.
# Usage: program.sh [--built] NAME...
set -euo pipefail
cd "$(dirname "$0")/.."
built=
if [ "${1:-}" = --built ]; then built=1; shift; fi
for name in "$@"; do
    program=target/bin/$name
    if [ -z "$built" ]; then
        if [ -x "$program" ] && [ ! crates.txt -nt "$program" ] &&
            [ -z "$(find crates -mindepth 2 -name out -prune -o -newer "$program" -print -quit)" ]; then continue; fi
        tools/rt.sh "$name" run
    fi
    mkdir -p target/bin
    cp "crates/$name/out/$name" "$program"
done
