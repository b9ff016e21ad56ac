#!/usr/bin/env bash
# Judges a store of tables on several machines, by GNU parallel over ssh: cuts it into pieces (cut.sh), has each judged at some host
# (piece.sh), again at another where that fails, and joins the results (join.sh) in RESULTS, a JSON line a table.
# Usage: run.sh --hosts FILE [--jobs N] [--tries N] [--ssh COMMAND] [--batch N] [--shared] [--linkcheck PROGRAM] FOLDER RESULTS
#               [-- OPTIONS OF LINKCHECK]
#   --hosts FILE  a host a line, as ssh takes it
#   --jobs N      so many pieces at a time at each host, 1 if not given
#   --tries N     how often a piece is tried, one more than there are hosts, and at least 3, if not given
#   --ssh COMMAND instead of ssh, as one that takes keys from elsewhere
# The others are for cut.sh. Until all is done the pieces are in RESULTS.pieces, and the same command goes on where it was stopped.
# Status: as linkcheck's, the gravest of 0, 4, 1, 5, 2, 6, 3 of all tables; 64 wrong arguments; 66 the store or the hosts can't be read;
# 69 parallel, ssh or rsync is not there; 70 the names joined aren't those of the store, or another error; 73 it can't be written; 75 not
# all are judged.
set -euo pipefail
export LC_ALL=C
here=$(CDPATH='' cd -- "$(dirname -- "$0")" && pwd)
hosts='' jobs=1 tries=''
ssh="ssh -o BatchMode=yes -o ConnectTimeout=10 -o ServerAliveInterval=5 -o ServerAliveCountMax=3"
cutting=() operands=() handed=()
failures=8 # pieces that failed at every trial before no more are started

fail() {
    printf 'store: %s\n' "$2" >&2
    exit "$1"
}
# An error that nothing else was said of is no verdict.
finished=
# shellcheck disable=SC2317 # the trap calls it
at_end() {
    if [ -z "$finished" ] && [ "$1" -lt 64 ]; then fail 70 "the run ended with an error"; fi
}
trap 'at_end $?' EXIT
usage() { fail 64 "$1; store/run.sh has the arguments in its first lines"; }

while [ $# -gt 0 ]; do
    case $1 in
    --hosts | --jobs | --tries | --ssh | --batch | --linkcheck) [ $# -gt 1 ] || usage "more is needed after $1" ;;
    esac
    case $1 in
    --hosts) hosts=$2 && shift ;;
    --jobs) jobs=$2 && shift ;;
    --tries) tries=$2 && shift ;;
    --ssh) ssh=$2 && shift ;;
    --batch | --linkcheck) cutting+=("$1" "$2") && shift ;;
    --shared) cutting+=("$1") ;;
    --) handed=("$@") && break ;;
    -*) usage "$(printf %q "$1") is no option" ;;
    *) operands+=("$1") ;;
    esac
    shift
done
[ ${#operands[@]} = 2 ] || usage "a folder of tables and a file for the results are needed"
[ -n "$hosts" ] || usage "--hosts FILE is needed"
[[ $jobs =~ ^[1-9][0-9]{0,2}$ && $tries =~ ^([1-9][0-9]{0,2})?$ ]] || usage "--jobs and --tries take numbers from 1 to 999"
results=${operands[1]}
[ ! -e "$results" ] || fail 73 "$(printf %q "$results") is there already"
for tool in parallel ssh rsync flock; do command -v $tool > /dev/null || fail 69 "$tool is not found"; done

# Blank lines and comments go. A host is a word, as parallel would take more for a command of its own; this machine too is reached by ssh.
mapfile -t list < <(sed 's/#.*//; s/^[[:blank:]]*//; s/[[:blank:]]*$//; /^$/d' "$hosts")
[ ${#list[@]} -gt 0 ] || fail 66 "no host in $(printf %q "$hosts")"
for host in "${list[@]}"; do [[ $host =~ ^[A-Za-z0-9_.@-]+$ && $host != -* ]] || fail 66 "$(printf %q "$host") is no host's name"; done
if [ -z "$tries" ]; then tries=$((${#list[@]} > 2 ? ${#list[@]} + 1 : 3)); fi

pieces=$results.pieces
mkdir -p "$pieces" || fail 73 "$(printf %q "$pieces") can't be made"
exec 9> "$pieces/lock"
flock -n 9 || fail 73 "$(printf %q "$pieces") is in use"
# What an earlier run left is looked at first: a result that isn't whole is not there.
if [ -f "$pieces/numbers" ]; then "$here/join.sh" --todo "$pieces" > /dev/null; fi
"$here/cut.sh" "${cutting[@]}" "${operands[0]}" "$pieces" "${handed[@]}"
"$here/join.sh" --todo "$pieces" > "$pieces/todo"

# What parallel ends with doesn't matter: what counts is which results are there.
judge() {
    local sent=() file
    for file in with/*; do sent+=(--basefile "$file"); done
    printf '%s\n' "${list[@]}" > hosts
    parallel --plain --sshloginfile hosts --ssh "$ssh" --jobs "$jobs" --retries "$tries" --halt "soon,fail=$failures" \
        --workdir "misogbu-store.$id" "${sent[@]}" --transferfile '{}.tgz' --return '{}.back' --cleanup \
        bash with/piece.sh '{}.tgz' '{}.back' < todo 9>&- ||
        printf 'store: parallel ended with status %s\n' $? >&2
}
id=$(uname -n).$$.$(date +%s%N) # no other run has it: what one left at a host is never taken for a result
if [ -s "$pieces/todo" ]; then (cd "$pieces" && judge); fi
status=0
"$here/join.sh" "$pieces" "$results" || status=$?
case $status in
[0-6])
    finished=1
    rm -rf "$pieces" || true
    ;;
esac
exit $status
