#!/usr/bin/env bash
# Makes target/staticlib/libNAME.a for each name, if it isn't there or is older than its sources: of the crate NAME_c, or of NAME where that
# is a static library itself. rt proves what they stand on first. With --proved they are made right after `rt ci`, over the libraries that it
# has proved and left in a clean clone, which then aren't proved again; as many at once as there are processors, four at most.
# Usage: library.sh [--proved] NAME...
set -euo pipefail
cd "$(dirname "$0")/.."
proved=
if [ "${1:-}" = --proved ]; then proved=1; shift; fi

# What each crate of the list stands on, and which are static libraries.
declare -A below=() static=()
while IFS= read -r line || [ -n "$line" ]; do
    line=${line%%#*}
    if [[ $line =~ ^[[:blank:]]*([a-z0-9_]+)([^:]*):(.*)$ ]]; then
        below[${BASH_REMATCH[1]}]=${BASH_REMATCH[3]}
        if [[ " ${BASH_REMATCH[2]} " == *" staticlib "* ]]; then static[${BASH_REMATCH[1]}]=1; fi
    fi
done < crates.txt

wanted=()
for name in "$@"; do
    library=target/staticlib/lib$name.a
    if [ ! -f "$library" ] || [ crates.txt -nt "$library" ] ||
        [ -n "$(find crates -mindepth 2 -name out -prune -o -newer "$library" -print -quit)" ]; then wanted+=("$name"); fi
done
if [ ${#wanted[@]} = 0 ]; then exit 0; fi
mkdir -p target/staticlib

# crate_of NAME: the static library.
crate_of() { if [ -n "${static[$1]-}" ]; then echo "$1"; else echo "$1_c"; fi; }
# all_below CRATE: the crates of the list below it, in any order, once each.
all_below() {
    local -A seen=()
    local left=("$1") crate dep
    while [ ${#left[@]} != 0 ]; do
        crate=${left[0]}
        left=("${left[@]:1}")
        for dep in ${below[$crate]}; do
            if [ -n "${below[$dep]+listed}" ] && [ -z "${seen[$dep]-}" ]; then
                seen[$dep]=1
                left+=("$dep")
                echo "$dep"
            fi
        done
    done
}
# left_by_ci CRATE: each library below it lies as rt ci leaves it in a clean clone, without the stamp by which other commands of rt take it.
left_by_ci() {
    local dep
    for dep in $(all_below "$1"); do
        if [ ! -f "crates/$dep/out/rlib/$dep.rlib/format" ] || [ -f "crates/$dep/out/rlib/stamp" ]; then return 1; fi
    done
}
# compile CRATE: proves and compiles a static library over those.
compile() {
    local kit crate=$1 dep words=()
    kit=$(dirname "$(rt doc)")
    for dep in std ${below[$crate]}; do
        if [ -n "${below[$dep]+listed}" ]; then words+=(--extern "$dep=../$dep/out/rlib/$dep.rlib"); else words+=(--extern "$dep=$kit/rlibs/$dep.rlib"); fi
    done
    for dep in $(all_below "$crate"); do words+=(-L "dependency=../$dep/out/rlib"); done
    mkdir -p "crates/$crate/out"
    (cd "crates/$crate" && "$kit/bin/rattle" build --crate-name "$crate" src/lib.rt "${words[@]}" -L "dependency=$kit/rlibs" \
        --antt-project "$kit/rattle/logic/antt-project.json" --logic-built "$kit/logic_built" --jobs 1 --links "$crate=" \
        --crate-type staticlib --toolchain "$kit/toolchain" --backend llvm -o "out/lib$crate.a")
}
# make NAME
make() {
    local crate log status=0
    crate=$(crate_of "$1")
    if [ -n "$proved" ] && left_by_ci "$crate"; then
        log=$(mktemp)
        compile "$crate" > "$log" 2>&1 || { tail -n 20 "$log" >&2; status=1; }
        rm "$log"
        [ "$status" = 0 ] || return 1
    else
        tools/rt.sh "$crate" lib
    fi
    cp "crates/$crate/out/lib$crate.a" "target/staticlib/lib$1.a"
    if [ -n "$proved" ]; then echo "library: target/staticlib/lib$1.a"; fi
}
# One after the other where rt does it, as each waits for the others.
most=1
if [ -n "$proved" ]; then most=$(nproc); fi
if [ "$most" -gt 4 ]; then most=4; fi
running=0
for name in "${wanted[@]}"; do
    if [ $running = "$most" ]; then wait -n; running=$((running - 1)); fi
    make "$name" &
    running=$((running + 1))
done
while [ $running -gt 0 ]; do wait -n; running=$((running - 1)); done
