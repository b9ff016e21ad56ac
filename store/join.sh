#!/usr/bin/env bash
# Joins the results of a store's pieces, in the order of the names, to one file with a JSON line a table, once each name is there exactly
# once. Prints a line with the counts. Usage: join.sh PIECES RESULTS; or join.sh --todo PIECES, which prints the numbers of the pieces that
# are still to be judged, and joins nothing.
# Status: as linkcheck's, the gravest of 0, 4, 1, 5, 2, 6, 3; 75 if pieces are missing, and nothing is joined then; 70 if the names of what
# was joined aren't those of the store; 73 if it can't be written.
set -euo pipefail
export LC_ALL=C
here=$(CDPATH='' cd -- "$(dirname -- "$0")" && pwd)
todo=
if [ "${1-}" = --todo ]; then todo=1 && shift; fi
pieces=$1
results=${2-}

fail() {
    printf 'store: %s\n' "$2" >&2
    exit "$1"
}
# An error that nothing else was said of is no verdict.
finished=
# shellcheck disable=SC2317 # the trap calls it
at_end() {
    if [ -z "$finished" ] && [ "$1" -lt 64 ]; then fail 70 "joining ended with an error"; fi
}
trap 'at_end $?' EXIT
# A result that came back becomes that of its piece if it is whole.
take_back() {
    local words=
    if [ -f "$pieces/$1.back" ] && [ ! -f "$pieces/$1.json" ]; then
        if words=$(is_whole "$1.back" "$1" 2>&1); then mv "$pieces/$1.back" "$pieces/$1.json"; fi
    fi
    if [ -f "$pieces/$1.json" ] && ! words=$(is_whole "$1.json" "$1" 2>&1); then rm -f "$pieces/$1.json"; fi
    rm -f "$pieces/$1.back"
    [ -z "$words" ] || printf 'store: the result of piece %s is not whole: %s\n' "$1" "$words" >&2
}
is_whole() {
    awk -f "$here/whole.awk" "$pieces/$2.names" "$pieces/$1" > /dev/null || return 1
    [ -z "$(tail -c 1 "$pieces/$1")" ] || { echo "its last line has no end" && return 1; }
}
# Names the pieces that are missing, up to ten.
missing() {
    local number absent=("$@") tables=0
    for number in "${absent[@]}"; do tables=$((tables + $(wc -l < "$pieces/$number.names"))); done
    printf 'store: %s of %s pieces are not judged, %s tables:\n' $# "$(wc -l < "$pieces/numbers")" "$tables" >&2
    for number in "${absent[@]:0:10}"; do
        printf '  piece %s: %s to %s\n' "$number" "$(head -n 1 "$pieces/$number.names")" "$(tail -n 1 "$pieces/$number.names")" >&2
    done
    [ $# -le 10 ] || printf '  and %s pieces more\n' $(($# - 10)) >&2
    fail 75 "not all tables are judged; the same command goes on with those that are missing"
}

absent=()
while read -r number; do
    take_back "$number"
    [ -f "$pieces/$number.json" ] || absent+=("$number")
done < "$pieces/numbers"
if [ -n "$todo" ]; then
    [ ${#absent[@]} = 0 ] || printf '%s\n' "${absent[@]}"
    finished=1
    exit 0
fi
[ ${#absent[@]} = 0 ] || missing "${absent[@]}"

while read -r number; do cat "$pieces/$number.json"; done < "$pieces/numbers" > "$pieces/joined"

# The names once more, from what was joined alone: none lost, none twice.
sed -n 's/^{"file":"\(\([^"\\]\|\\.\)*\)","verdict":".*}$/\1/p' "$pieces/joined" | sed 's/\\\(.\)/\1/g' > "$pieces/judged"
if ! cmp -s "$pieces/names" "$pieces/judged" || [ "$(wc -l < "$pieces/joined")" != "$(wc -l < "$pieces/names")" ]; then
    diff "$pieces/names" "$pieces/judged" | head -n 10 >&2 || true
    fail 70 "the tables judged are not those of the store; < is the store's, > what was judged"
fi
if ! { cp "$pieces/joined" "$results.new" && mv "$results.new" "$results"; }; then fail 73 "$(printf %q "$results") can't be written"; fi

# The status, and the line with the counts.
told=$(awk -v FS='","verdict":"' '
    { count[substr($2, 1, index($2, "\"") - 1)]++ }
    function also(word, words) { return count[word] ? ", " count[word] " " words : "" }
    function gravest() {
        if (count["unreadable"]) return 3
        if (count["not finished"]) return 6
        if (count["turned down"]) return 2
        if (count["other duty"]) return 5
        if (count["failed"]) return 1
        return count["accepted after internal"] ? 4 : 0
    }
    END {
        read = NR - count["unreadable"]
        printf "%d %d table%s: %d accepted%s, %d failed, %d turned down%s%s", gravest(), read, read == 1 ? "" : "s", count["accepted"],
            also("accepted after internal", "accepted after a first internal step"), count["failed"], count["turned down"],
            also("other duty", "with another duty"), also("not finished", "not finished")
        if (count["unreadable"]) printf "; %d not read", count["unreadable"]
        print ""
    }' "$pieces/joined")
printf '%s\n' "${told#* }" || fail 73 "the counts can't be written"
finished=1
exit "${told%% *}"
