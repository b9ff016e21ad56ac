#!/usr/bin/env bash
# Tries store/run.sh over four hosts on the loopback: one that is killed in the middle, all of them killed and started again, results that
# are cut off, tables that can't be read, names that are odd. Ends with 1 at the first fault, and at once, with 0, where parallel, sshd or
# rsync is not there.
# shellcheck disable=SC2016 # what stands in for linkcheck is written as it is
set -euo pipefail
cd "$(dirname "$0")/.."
export LC_ALL=C
for tool in parallel sshd rsync ssh ps; do
    PATH=$PATH:/usr/sbin:/sbin command -v $tool > /dev/null || { echo "store: not tried: no parallel or sshd here ($tool)"; exit 0; }
done
linkcheck/build.sh
program=$PWD/target/bin/linkcheck
work=$(mktemp -d)
hosts=$work/hosts
mkdir "$hosts" "$work/parallel"
export PARALLEL_HOME=$work/parallel
trap 'store/loopback.sh --kill "$hosts"; rm -rf "$work"' EXIT
store/loopback.sh "$hosts" 4 || { echo "store: not tried: no sshd can be started here"; exit 0; }

fail() {
    echo "store test: $*" >&2
    if [ -f "$work/said" ]; then tail -n 20 "$work/said" >&2; fi
    exit 1
}
# run STATUS WORDS ARGUMENTS...: how store/run.sh ends with these and what is said.
run() {
    local due=$1 words=$2 got=0
    shift 2
    store/run.sh --hosts "$hosts/hosts" --ssh "$hosts/ssh" "$@" > "$work/said" 2>&1 || got=$?
    [ "$got" = "$due" ] || fail "$*: status $got, $due is due"
    grep -qF -e "$words" "$work/said" || fail "$*: \"$words\" is due"
}
same() {
    cmp -s "$work/one" "$work/results" || fail "$1: other results than linkcheck's"
    [ ! -e "$work/results.pieces" ] || fail "$1: pieces are left"
    rm "$work/results"
}
# A linkcheck that does this first. $room is a folder for what it has to remember.
stand_in() {
    printf '#!/usr/bin/env bash\nroom=%q\nlinkcheck=%q\n%s\nexec "$linkcheck" "$@"\n' "$work" "$program" "$1" > "$work/linkcheck"
    chmod +x "$work/linkcheck"
}

# A store: every eighth of the tables, in folders, and some with odd names.
store=$work/store
mkdir -p "$store/in it"
count=0
for table in compare/tables/*.txt; do
    count=$((count + 1))
    if [ $((count % 8)) = 0 ]; then cp "$table" "$store/"; fi
done
cp examples/*.txt "$store/in it/"
cp examples/pump.txt "$store/"' "a"  \n $x * é.txt'
cp examples/pump.txt "$store/-j.txt"
ln "$store/-j.txt" "$store/again.txt"
ln -s again.txt "$store/link.txt"
(cd "$store" && find . -name '*.txt' -printf '%P\0' | sort -z | { xargs -0 "$program" --json -- || [ $? = 123 ]; }) > "$work/one"
tables=$(wc -l < "$work/one")

# One host is killed while it works: linkcheck at that host says where it is, and waits. Its pieces are judged elsewhere.
stand_in 'if [ "$3" != /dev/null ] && [[ ${SSH_CONNECTION-} == *" 127.0.0.2 "* ]]; then touch "$room/at-work"; sleep 60; fi'
{
    for _ in {1..300}; do if [ -e "$work/at-work" ]; then break; fi && sleep 0.1; done
    store/loopback.sh --kill "$hosts" 127.0.0.2
} &
run 2 "$tables tables: " --batch 25 --linkcheck "$work/linkcheck" "$store" "$work/results"
wait
[ -e "$work/at-work" ] || fail "the host that was killed had no work"
same "a host killed"

# Results that are cut off, at first: the first call of linkcheck for a piece writes a part. It ends as if nothing were wrong, and the piece
# is judged once more; what was said of a trial that failed is not shown then.
rm -rf "$work/cut" && mkdir "$work/cut"
stand_in 'if [ "$3" != /dev/null ] && mkdir "$room/cut/$(printf "%s" "$3" | sha256sum | cut -c 1-20)" 2> /dev/null; then
    "$linkcheck" "$@" | head -c 400
    exit 1
fi'
run 2 "$tables tables: " --batch 60 --linkcheck "$work/linkcheck" "$store" "$work/results"
same "cut off"
[ "$(find "$work/cut" -mindepth 1 | wc -l)" = $(((tables + 59) / 60)) ] || fail "not every piece was cut off once"

# All hosts are killed when some pieces are done. What is missing is named; the same command goes on, and judges no piece a second time.
stand_in 'if [ "$3" != /dev/null ]; then
    printf "%s\n" "$3" >> "$room/calls"
    if [ -e "$room/dying" ] && [ "$(wc -l < "$room/calls")" -gt 4 ]; then touch "$room/die"; sleep 60; fi
fi'
touch "$work/dying"
{
    for _ in {1..600}; do if [ -e "$work/die" ]; then break; fi && sleep 0.1; done
    store/loopback.sh --kill "$hosts"
} &
run 75 "not all tables are judged" --batch 25 --linkcheck "$work/linkcheck" "$store" "$work/results"
wait
[ ! -e "$work/results" ] || fail "results, though tables are missing"
grep -q 'pieces are not judged, [0-9]* tables:' "$work/said" || fail "what is missing isn't counted"
grep -q '^  piece 0000[0-9]*: .* to ' "$work/said" || fail "what is missing isn't named"
done_before=$(find "$work/results.pieces" -name '*.json' | wc -l)
[ "$done_before" -gt 0 ] || fail "no piece was done before the hosts died"
rm "$work/dying" "$work/calls"
# A result that was done and is cut off since is judged again, and so are tables that have changed.
cut=$(find "$work/results.pieces" -name '*.json' | sort | head -n 1)
truncate -s -1 "$cut"
rm -rf "$hosts" && mkdir "$hosts" && store/loopback.sh "$hosts" 4
run 2 "is not whole: its last line has no end" --batch 25 --linkcheck "$work/linkcheck" "$store" "$work/results"
pieces=$(((tables + 24) / 25))
[ "$(wc -l < "$work/calls")" = $((pieces - done_before + 1)) ] || fail "$(wc -l < "$work/calls") calls after $done_before of $pieces pieces"
same "started again"

# A result with a name twice and another lost never counts.
stand_in 'if [ "$3" != /dev/null ]; then "$linkcheck" "$@" | sed "2{h;d};3{p;p;d}"; exit 1; fi'
run 75 "not of the table that is due" --tries 1 --linkcheck "$work/linkcheck" "$store" "$work/results"
rm -rf "$work/results.pieces"

# A host without room, a linkcheck that is killed: no verdict.
stand_in 'if [ "$3" != /dev/null ]; then kill -KILL $$; fi'
run 75 "linkcheck ended with status 137" --tries 1 --linkcheck "$work/linkcheck" "$store" "$work/results"
rm -rf "$work/results.pieces"

# A table that can't be read at one host is read at another; one that can't be read anywhere is named, with its own status.
rm -rf "$work/cut" && mkdir "$work/cut"
stand_in 'if [ "$3" != /dev/null ] && mkdir "$room/cut/one" 2> /dev/null; then rm -f again.txt; fi'
run 2 "$tables tables: " --linkcheck "$work/linkcheck" "$store" "$work/results"
same "unread at one host"
[ -d "$work/cut/one" ] || fail "every host could read all tables"
stand_in 'if [ "$3" != /dev/null ]; then rm -f again.txt; fi'
run 3 "$((tables - 1)) tables: " --tries 2 --linkcheck "$work/linkcheck" "$store" "$work/results"
grep -q '; 1 not read$' "$work/said" || fail "the table that isn't read is not counted"
[ "$(grep -c '^{"file":"again.txt","verdict":"unreadable",' "$work/results")" = 1 ] || fail "again.txt is not named as unreadable"
rm "$work/results"

# The three commands by themselves, as a batch system has them run.
store/cut.sh --shared --batch 100 "$store" "$work/pieces" -- -j 2
store/join.sh --todo "$work/pieces" > "$work/todo"
[ "$(wc -l < "$work/todo")" = $(((tables + 99) / 100)) ] || fail "--todo: $(cat "$work/todo")"
while read -r number; do bash "$work/pieces/with/piece.sh" "$work/pieces/$number.tgz" "$work/pieces/$number.back"; done < "$work/todo"
[ -z "$(store/join.sh --todo "$work/pieces")" ] || fail "--todo: pieces are left"
got=0
store/join.sh "$work/pieces" "$work/results" > "$work/said" || got=$?
[ "$got" = 2 ] || fail "join.sh: status $got"
same "by themselves"

# A shared folder; options for linkcheck.
run 2 "$tables tables: " --shared --jobs 2 "$store" "$work/results" -- -j 2
same "shared"
# The buyer's file goes to the hosts, and the words of tables that differ from it, or are not finished, have their statuses.
echo "a duty" > "$work/a duty"
stand_in 'own=()
while [ $# -gt 0 ]; do
    case $1 in
    --duty) cmp -s "$2" "$room/a duty" && shift || exit 64 ;;
    --timeout) [ "$2" = 60 ] && shift || exit 64 ;;
    *) own+=("$1") ;;
    esac
    shift
done
"$linkcheck" "${own[@]}" | sed "s/\"verdict\":\"turned down\"/\"verdict\":\"$(cat "$room/word")\"/"
exit 5'
for words in "5:other duty:with another duty" "6:not finished:not finished"; do
    IFS=: read -r status verdict said <<< "$words"
    printf '%s\n' "$verdict" > "$work/word"
    run "$status" ", 0 turned down, " --linkcheck "$work/linkcheck" "$store" "$work/results" -- --duty "$work/a duty" --timeout 60
    grep -q ", 0 turned down, [1-9][0-9]* $said\$" "$work/said" || fail "$verdict: what is said"
    rm "$work/results"
done
echo "an odd verdict" > "$work/word"
run 75 "no verdict" --tries 1 --linkcheck "$work/linkcheck" "$store" "$work/results" -- --duty "$work/a duty"
rm -rf "$work/results.pieces"
run 64 "is no option that goes with a store" "$store" "$work/results" -- --report
run 64 "linkcheck doesn't take these options" "$store" "$work/results" -- -j 0
run 64 "a folder of tables and a file" "$store"
# Results may be in the store itself.
run 2 "$tables tables: " "$store" "$store/results" -- -j 2
rm "$store/results"

# What can't be written is no verdict.
if [ -c /dev/full ]; then
    got=0
    store/run.sh --hosts "$hosts/hosts" --ssh "$hosts/ssh" "$store" "$work/results" > /dev/full 2> "$work/said" || got=$?
    [ "$got" = 73 ] || fail "a full disk: status $got"
    rm -rf "$work/results" "$work/results.pieces"
fi
run 73 "can't be made" "$store" "$work/one/results"
run 66 "no host in" --hosts /dev/null "$store" "$work/results"
got=0
store/join.sh "$work/nothing" "$work/results" > "$work/said" 2>&1 || got=$?
[ "$got" = 70 ] || fail "pieces that are not there: status $got"

# Names and folders that are refused.
touch "$store/"$'a\nb.txt'
run 66 "with control characters, the first is \$'a\\nb.txt'" "$store" "$work/results"
rm "$store/"$'a\nb.txt' && touch "$store/"$'\xff.txt'
run 66 "a name is no UTF-8: \$'\\377.txt'" "$store" "$work/results"
rm "$store/"$'\xff.txt' && ln -s nowhere "$store/nowhere.txt"
run 66 "of what is no file, the first is nowhere.txt" "$store" "$work/results"
rm "$store/nowhere.txt" && touch "$work/results"
run 73 "is there already" "$store" "$work/results"
rm "$work/results" && mkdir "$work/empty"
run 66 "no table in this folder" "$work/empty" "$work/results"
rm -rf "$work/results.pieces"

echo "store: $tables tables over four hosts, one killed, all killed, results cut off: each table once"
