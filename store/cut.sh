#!/usr/bin/env bash
# Cuts a store of tables into pieces, each of which piece.sh can judge at any host; join.sh makes one result of theirs.
# Usage: cut.sh [--batch N] [--shared] [--linkcheck PROGRAM] FOLDER PIECES [-- OPTIONS OF LINKCHECK]
# FOLDER has the tables: every *.txt in it and in the folders in it, but names that begin with a dot. PIECES is a folder of its own: names,
# with/ (what every host needs), NUMBER.tgz (the tables of a piece) for each piece that is to be judged. What was judged before under PIECES
# is kept if its tables, the program and the options are the same to the byte.
#   --batch N   at most N tables a piece, 500 if not given
#   --shared    the hosts have FOLDER too, under the same name: a piece has names alone
# Statuses: 64 wrong arguments; 66 the store can't be read, or has a name that is refused; 73 PIECES can't be written.
set -euo pipefail
export LC_ALL=C
here=$(CDPATH='' cd -- "$(dirname -- "$0")" && pwd)
batch=500
shared=
program=$here/../target/bin/linkcheck
options=()
duty=
most_bytes=500000 # of the names of a piece: they become arguments of one program

fail() {
    printf 'store: %s\n' "$2" >&2
    exit "$1"
}
usage() { fail 64 "$1; store/cut.sh has the arguments in its first lines"; }

# ---- arguments

take_options() {
    while [ $# -gt 0 ]; do
        case $1 in
        --typed | -j[0-9]* | --jobs=*) options+=("$1") ;;
        --timeout | -j) [ $# -gt 1 ] || usage "$1 needs a number" && options+=("$1" "$2") && shift ;;
        --timeout=*) options+=("$1") ;;
        --duty) [ $# -gt 1 ] || usage "--duty needs a file" && duty=$2 && shift ;;
        --duty=*) duty=${1#--duty=} ;;
        *) usage "$(printf %q "$1") is no option that goes with a store: --duty, --timeout, --typed and -j do" ;;
        esac
        shift
    done
}
operands=()
while [ $# -gt 0 ]; do
    case $1 in
    --batch) [ $# -gt 1 ] || usage "--batch needs a number" && batch=$2 && shift ;;
    --linkcheck) [ $# -gt 1 ] || usage "--linkcheck needs a program" && program=$2 && shift ;;
    --shared) shared=1 ;;
    --) shift && take_options "$@" && break ;;
    -*) usage "$(printf %q "$1") is no option" ;;
    *) operands+=("$1") ;;
    esac
    shift
done
[ ${#operands[@]} = 2 ] || usage "a folder of tables and a folder for the pieces are needed"
[[ $batch =~ ^[1-9][0-9]{0,5}$ ]] || usage "--batch takes a number from 1 to 999999"
[ -d "${operands[0]}" ] || fail 66 "$(printf %q "${operands[0]}") is no folder"
[ -x "$program" ] || fail 66 "$(printf %q "$program") is not there; linkcheck/build.sh makes it"
folder=$(realpath "${operands[0]}")
mkdir -p "${operands[1]}" || fail 73 "$(printf %q "${operands[1]}") can't be made"
pieces=$(realpath "${operands[1]}")

# ---- the names

tables() { # TESTS...: the names with these, each with a byte 0 at its end
    (cd "$folder" && find . -name '.?*' -prune -o -name '*.txt' ! -type d "$@" -printf '%P\0') || fail 66 "the folder can't be read"
}
# Refuses the names in a file, if there are any, and shows the first.
refuse() {
    local name
    [ -s "$2" ] || return 0
    IFS= read -r -d '' name < "$2" || true
    fail 66 "$(tr -cd '\0' < "$2" | wc -c) name(s) $1, the first is $(printf %q "$name")"
}
# A name is in the result as it is: one with a control character, or that is no UTF-8, wouldn't be.
list_names() {
    tables | sort -z > "$pieces/.names"
    [ -s "$pieces/.names" ] || fail 66 "no table in this folder: nothing there is named *.txt"
    { grep -zaP '[\x01-\x1f\x7f]|\xc2[\x80-\x9f]' "$pieces/.names" || true; } > "$pieces/.odd"
    refuse "with control characters" "$pieces/.odd"
    iconv -f UTF-8 -t UTF-8 "$pieces/.names" > "$pieces/.odd" 2> /dev/null || fail 66 "a name is no UTF-8: $(first_not_utf8)"
    tables ! -xtype f > "$pieces/.odd"
    refuse "of what is no file" "$pieces/.odd"
    tables -xtype f ! -readable | sort -z | tr '\0' '\n' > "$pieces/unread"
    tr '\0' '\n' < "$pieces/.names" > "$pieces/names"
    rm "$pieces/.odd" "$pieces/.names"
    sed 's/^/store: this table can'\''t be read: /' "$pieces/unread" >&2
}
first_not_utf8() {
    local name
    while IFS= read -r -d '' name; do
        printf %s "$name" | iconv -f UTF-8 -t UTF-8 > /dev/null 2>&1 || { printf %q "$name" && return; }
    done < "$pieces/.names"
}

# ---- what every host needs

gather() {
    rm -rf "$pieces/with"
    mkdir "$pieces/with"
    cp "$program" "$pieces/with/linkcheck"
    cp "$here/piece.sh" "$here/whole.awk" "$pieces/with/"
    if [ ${#options[@]} -gt 0 ]; then printf '%s\n' "${options[@]}"; fi > "$pieces/with/options"
    if [ -n "$duty" ]; then cp "$duty" "$pieces/with/duty" || fail 66 "$(printf %q "$duty") can't be read"; fi
    if [ -n "$shared" ]; then printf '%s\n' "$folder" > "$pieces/with/folder"; fi
}
# The program runs here, and knows its options.
try_program() {
    local status=0 own=("${options[@]}")
    if [ -n "$duty" ]; then own+=(--duty "$pieces/with/duty"); fi
    "$pieces/with/linkcheck" --json "${own[@]}" -- /dev/null > "$pieces/.trial" || status=$?
    rm -f "$pieces/.trial"
    case $status in
    1 | 2 | 5) ;;
    64) fail 64 "linkcheck doesn't take these options" ;;
    *) fail 66 "linkcheck ends with status $status for a text that is empty" ;;
    esac
}

# ---- the pieces

# Writes NUMBER.names for each piece, and the numbers.
cut_names() {
    find "$pieces" -maxdepth 1 -name '*.names' -delete
    awk -v batch="$batch" -v most="$most_bytes" -v to="$pieces" '
        !piece || count == batch || bytes + length($0) >= most {
            if (piece) close(to "/" piece ".names")
            piece = sprintf("%06d", ++pieces)
            count = bytes = 0
            print piece
        }
        { count++; bytes += length($0) + 1; print > (to "/" piece ".names") }' "$pieces/names"
}
# A tar of the piece's tables that depends on nothing but their names and bytes.
pack() {
    cp "$pieces/$1.names" "$room/.names"
    awk 'NR == FNR { unread[$0] = 1; next } $0 in unread' "$pieces/unread" "$room/.names" > "$room/.unread"
    awk 'NR == FNR { unread[$0] = 1; next } !($0 in unread)' "$room/.unread" "$room/.names" | tr '\n' '\0' > "$room/there"
    if [ ! -s "$room/.unread" ]; then tr '\n' '\0' < "$room/.names" > "$room/there"; fi
    tar -c -h --hard-dereference --no-recursion --format=gnu --mtime=@0 --owner=0 --group=0 --mode=0644 -C "$room" .names .unread \
        -C "$folder" --null --verbatim-files-from -T "$room/there" > "$room/tar"
}
# A piece that is done stays so if nothing of it has changed.
make_piece() {
    local sum
    pack "$1" || fail 66 "the tables of piece $1 can't be read"
    sum=$(cat "$room/with" "$room/tar" | sha256sum)
    if [ "$sum" != "$(cat "$pieces/$1.sum" 2> /dev/null || true)" ]; then rm -f "$pieces/$1".{json,back}; fi
    printf '%s\n' "$sum" > "$pieces/$1.sum"
    rm -f "$pieces/$1.tgz"
    if [ -n "$shared" ]; then tar -c -C "$room" .names .unread > "$room/tar"; fi
    if [ ! -f "$pieces/$1.json" ]; then gzip -n1 < "$room/tar" > "$pieces/$1.tgz"; fi
}
# Results of pieces that are no longer there go.
forget_others() {
    local file
    for file in "$pieces"/*.{json,back,sum,tgz}; do
        [ -f "${file%.*}.names" ] || rm -f "$file"
    done
}

room=$(mktemp -d)
trap 'rm -rf "$room"' EXIT
list_names
gather
try_program
(cd "$pieces/with" && sha256sum ./*) > "$room/with"
cut_names > "$pieces/numbers"
forget_others
while read -r number; do make_piece "$number"; done < "$pieces/numbers"
