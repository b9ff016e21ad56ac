#!/usr/bin/env bash
# Tries transition systems and pictures: their states and steps against a search by test/graphs.py, and what Graphviz says of them, where it
# is installed. Ends with 1 at the first fault. Usage: test_pictures.sh TABLE...
set -euo pipefail
cd "$(dirname "$0")/.."
export LC_ALL=C
work=$(mktemp -d)
trap 'rm -rf "$work"' EXIT
linkcheck=$PWD/target/bin/linkcheck

fail() {
    echo "linkcheck pictures: $*" >&2
    exit 1
}
linkcheck/test/graphs.py "$linkcheck" "$@" || fail "a system is not as it should be"

# draws HOW ARGUMENTS...: Graphviz takes the picture, without a word.
draws() {
    local how=$1 got=0
    shift
    "$linkcheck" --dot "$@" > "$work/dot" 2> "$work/error" || got=$?
    if [ "$got" = 1 ] || [ "$got" = 2 ]; then return; fi
    [ "$got" = 0 ] || fail "--dot $*: status $got"
    dot "$how" "$work/dot" > "$work/drawn" 2> "$work/error" || fail "dot $how: --dot $*: $(head -n 1 "$work/error")"
    [ -s "$work/drawn" ] || fail "dot $how: --dot $*: nothing is drawn"
    if [ -s "$work/error" ]; then fail "dot $how: --dot $*: $(head -n 1 "$work/error")"; fi
    drawn=$((drawn + 1))
}
drawn=0 by=
if dot -V > "$work/version" 2>&1; then
    by=" by $(grep -o 'version [0-9.]*' "$work/version" || echo some version) of Graphviz"
    for table in "$@"; do draws -Tcanon "$table"; done
    for table in examples/*.txt; do
        case $table in *concurrent*) continue ;; esac
        for side in "" impl spec; do draws -Tsvg ${side:+"$side"} "$table"; done
    done
    for state in 7946 9 16; do draws -Tsvg --around $state examples/concurrent-alternating-bit-with-loss.txt; done
    [ "$drawn" -ge 100 ] || fail "only $drawn pictures"
    # The picture of the alternating bit fits on a large screen, and is no strip.
    "$linkcheck" --dot examples/alternating-bit.txt | dot -Tsvg > "$work/drawn"
    read -r wide high < <(sed -n 's/^<svg width="\([0-9]*\)pt" height="\([0-9]*\)pt".*/\1 \2/p' "$work/drawn")
    if ((wide > 4000 || high > 2000)); then fail "the alternating bit is $wide by $high points"; fi
fi
echo "linkcheck pictures: $drawn drawn${by:-, as there is no Graphviz}: no fault"
