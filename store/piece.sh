#!/usr/bin/env bash
# Judges a piece of a store, at any host: unpacks PIECE, a .tgz that cut.sh made, runs the linkcheck beside this script on its tables and
# writes a JSON line for each to RESULT, which is whole or not there. Ends with 0 if each table that could be read was judged; with 1 and a
# message if not, as a trial at another host may do better. Usage: piece.sh PIECE RESULT
set -euo pipefail
export LC_ALL=C
here=$(CDPATH='' cd -- "$(dirname -- "$0")" && pwd)
piece=$(realpath "$1")
result=$(realpath "$2")
room=$(mktemp -d)
trap 'rm -rf "$room"' EXIT

fail() {
    printf 'store: %s at %s: %s\n' "$(basename "$piece" .tgz)" "$(uname -n)" "$*" >&2
    exit 1
}

mkdir "$room/tables"
tar -xzf "$piece" -C "$room/tables" || fail "it can't be unpacked"
mapfile -t names < "$room/tables/.names"
mapfile -t options < "$here/options"
if [ -f "$here/duty" ]; then options+=(--duty "$here/duty"); fi
folder=$room/tables
if [ -f "$here/folder" ]; then folder=$(< "$here/folder"); fi
cd "$folder" || fail "the folder can't be entered"

status=0
"$here/linkcheck" --json "${options[@]}" -- "${names[@]}" > "$room/result" || status=$?
case $status in
0 | 1 | 2 | 3 | 4 | 5 | 6) ;;
*) fail "linkcheck ended with status $status" ;;
esac
unread=$(awk -f "$here/whole.awk" "$room/tables/.names" "$room/result") || fail "the result is not whole"
[ -z "$(tail -c 1 "$room/result")" ] || fail "the result is not whole: its last line has no end"
cp "$room/result" "$result.new"
mv "$result.new" "$result"
[ "$unread" = "$(wc -l < "$room/tables/.unread")" ] || fail "$unread tables could not be read"
[ "$status" != 3 ] || [ "$unread" != 0 ] || fail "linkcheck ended with status 3"
