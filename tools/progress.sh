#!/usr/bin/env bash
# Follows the lines of rt on standard input as it proves CRATE and those below it, one after the other, and says how many are left and roughly
# how long they take, by the time that the others took. Lines that say something else than that a crate is begun are passed on.
# Usage: progress.sh CRATE
set -euo pipefail
cd "$(dirname "$0")/.."
declare -A below=() wanted=()

while IFS= read -r line || [ -n "$line" ]; do
    line=${line%%#*}
    if [[ $line =~ ^[[:blank:]]*([A-Za-z0-9_]+)[^:]*:(.*)$ ]]; then below[${BASH_REMATCH[1]}]=${BASH_REMATCH[2]}; fi
done < crates.txt
# This crate and those below it, each with how many rt comes to before it. Libraries of the toolchain are not listed.
all=0
want() {
    local crate
    if [ -z "${below[$1]+listed}" ] || [ -n "${wanted[$1]-}" ]; then return 0; fi
    for crate in ${below[$1]}; do want "$crate"; done
    wanted[$1]=$all
    all=$((all + 1))
}
want "$1"
left=$all proved=-1 shown=''

# Roughly, by the crates that were proved now; upper crates take longer than those that come first.
how_long() {
    if [ "$proved" -lt 3 ]; then echo "some minutes" && return; fi
    local seconds=$((SECONDS * left / proved))
    if [ "$seconds" -lt 90 ]; then echo "about $((seconds / 10 * 10 + 10)) seconds"; else echo "about $(((seconds + 59) / 60)) minutes"; fi
}
# If it can't be written, nothing is lost.
say() {
    if [ "$left" = "$shown" ] || [ "$left" = 0 ]; then return 0; fi
    shown=$left
    printf 'check: proving, %s of %s crates left, %s\n' "$left" "$all" "$(how_long)" 2> /dev/null || true
}

say
while IFS= read -r line; do
    if [[ $line =~ ^rt:\ chose\ --jobs\ [0-9]+\ for\ ([A-Za-z0-9_]+)$ && -n ${wanted[${BASH_REMATCH[1]}]-} ]]; then
        # Those before it are proved; what rt had proved earlier has no line.
        left=$((all - wanted[${BASH_REMATCH[1]}]))
        proved=$((proved + 1))
        # More lines may have come with this one.
        if ! read -r -t 0; then say; fi
    elif [[ ! $line =~ ^rt:\ ([A-Za-z0-9_]+:\ begins\ with\ |running\ out/) ]]; then
        printf '%s\n' "$line" 2> /dev/null || true
    fi
done
