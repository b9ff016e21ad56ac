#!/usr/bin/env bash
# Starts hosts for a trial on the loopback: N sshd with keys and a configuration of their own in FOLDER, one for each of 127.0.0.1,
# 127.0.0.2, .. at a free port. Writes FOLDER/hosts, FOLDER/ssh (the command to reach them by) and FOLDER/HOST.pid; FOLDER is the login
# folder too. Nothing else is changed.
# Usage: loopback.sh FOLDER N; end them by loopback.sh --kill FOLDER [HOST...], with all that runs under them.
set -euo pipefail

# The processes under this one, and it.
tree_of() {
    local child
    for child in $(ps -o pid= --ppid "$1"); do tree_of "$child"; done
    printf '%s\n' "$1"
}
# The first processes that are left alone can't be seen any more once their parent is gone, so all are found before any is ended.
kill_host() {
    local pids
    [ -f "$1" ] || return 0
    mapfile -t pids < <(tree_of "$(cat "$1")")
    rm -f "$1"
    kill -KILL "${pids[@]}" 2> /dev/null || true
}
if [ "$1" = --kill ]; then
    folder=$2
    shift 2
    if [ $# = 0 ]; then set -- "$folder"/*.pid; else set -- "${@/#/$folder/}" && set -- "${@/%/.pid}"; fi
    for file in "$@"; do kill_host "$file"; done
    exit 0
fi

folder=$(realpath "$1")
sshd=$(PATH=$PATH:/usr/sbin:/sbin command -v sshd)
if [ "$(id -u)" = 0 ]; then mkdir -p /run/sshd; fi
for key in host user; do ssh-keygen -q -t ed25519 -N '' -f "$folder/$key"; done
cp "$folder/user.pub" "$folder/authorized"
chmod 600 "$folder/authorized"
start() { # PORT HOST
    "$sshd" -f /dev/null -o "HostKey=$folder/host" -o "AuthorizedKeysFile=$folder/authorized" -o StrictModes=no -o UsePAM=no \
        -o "ListenAddress=$2" -o "Port=$1" -o "PidFile=$folder/$2.pid" -o PermitRootLogin=yes -o MaxStartups=100 -o LogLevel=QUIET \
        -o "SetEnv=HOME=$folder" -o "ForceCommand=cd '$folder' && eval \"\$SSH_ORIGINAL_COMMAND\""
    for _ in {1..50}; do
        if [ -s "$folder/$2.pid" ] && kill -0 "$(cat "$folder/$2.pid")" 2> /dev/null; then return 0; fi
        sleep 0.1
    done
    return 1
}
port=$((20000 + RANDOM % 20000))
for _ in {1..20}; do
    if start "$port" 127.0.0.1; then break; fi
    port=$((port + 1))
done
for ((i = 2; i <= $2; i++)); do start "$port" "127.0.0.$i"; done
for ((i = 1; i <= $2; i++)); do echo "127.0.0.$i"; done > "$folder/hosts"
cat > "$folder/ssh" << END
#!/bin/sh
exec ssh -F /dev/null -p $port -i $folder/user -o IdentitiesOnly=yes -o StrictHostKeyChecking=no -o UserKnownHostsFile=/dev/null \
    -o LogLevel=ERROR -o BatchMode=yes -o ConnectTimeout=10 -o ServerAliveInterval=5 -o ServerAliveCountMax=3 "\$@"
END
chmod +x "$folder/ssh"
