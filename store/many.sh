#!/usr/bin/env bash
# Times store/run.sh over a large store: COUNT tables, 100,000 if not given, which are copies of compare/tables and examples under numbered
# folders, over four hosts on the loopback, of which one is killed when a third of the pieces is judged. The result is held against that of
# one linkcheck over the same names. Usage: many.sh [COUNT [BATCH]]
set -euo pipefail
cd "$(dirname "$0")/.."
export LC_ALL=C
count=${1:-100000}
batch=${2:-500}
linkcheck/build.sh
program=$PWD/target/bin/linkcheck
work=$(mktemp -d)
trap 'store/loopback.sh --kill "$work/hosts"; rm -rf "$work"' EXIT
mkdir "$work/hosts" "$work/store" "$work/parallel"
export PARALLEL_HOME=$work/parallel
store/loopback.sh "$work/hosts" 4

for ((i = 0, made = 0; made < count; i++)); do
    folder=$(printf '%s/store/%05d' "$work" $i)
    mkdir "$folder"
    cp compare/tables/*.txt examples/*.txt "$folder/"
    made=$((made + $(find "$folder" -type f | wc -l)))
done
(cd "$work/store" && find . -type f -printf '%P\0' | sort -z | tail -z -n +$((count + 1)) | xargs -0 -r rm)
echo "$(find "$work/store" -name '*.txt' | wc -l) tables, $(du -s --apparent-size -BM "$work/store" | cut -f 1)"

# Kills a host once so many results are there.
kill_at() {
    while [ "$(find "$work/results.pieces" -name '*.back' 2> /dev/null | wc -l)" -lt "$1" ]; do sleep 0.2; done
    store/loopback.sh --kill "$work/hosts" 127.0.0.3
    echo "127.0.0.3 is killed after $1 pieces" >&2
}
kill_at $((count / batch / 3)) &
killer=$!
began=$(date +%s)
status=0
store/run.sh --hosts "$work/hosts/hosts" --ssh "$work/hosts/ssh" --batch "$batch" "$work/store" "$work/results" \
    > "$work/said" 2> "$work/errors" || status=$?
took=$(($(date +%s) - began))
kill "$killer" 2> /dev/null && { echo "no host was killed" >&2 && exit 1; }
cat "$work/said"
sort "$work/errors" | uniq -c | sort -rn | head -n 5 >&2
[ "$status" -le 6 ] || exit "$status"
echo "run.sh ended with status $status after $took s: $((count / (took ? took : 1))) tables a second"

began=$(date +%s)
(cd "$work/store" && find . -type f -printf '%P\0' | sort -z | { xargs -0 "$program" --json -- || [ $? = 123 ]; }) > "$work/one"
echo "one linkcheck after the other: $(($(date +%s) - began)) s"
cmp "$work/one" "$work/results"
echo "the same results, $(wc -l < "$work/results") lines"
