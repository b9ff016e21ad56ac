# For scripts to source: commands that go on beside a script. The status of each is kept in a file, as a shell forgets that of a process that
# has ended, or takes another's for it, once a later child is given the same number.
# shellcheck shell=bash
declare -A goes_beside
beside_at=$(mktemp -d)

# beside NAME COMMAND...: goes on beside what follows, until `joined NAME`.
beside() {
    local name=$1
    shift
    rm -f "$beside_at/$name.status"
    (
        "$@" &
        trap 'kill $! 2> /dev/null; exit 143' USR1
        got=0
        wait $! || got=$?
        echo "$got" > "$beside_at/$name.status"
    ) > "$beside_at/$name.said" 2>&1 &
    goes_beside[$name]=$!
}
# ended NAME: waits for it, and has its status.
ended() {
    wait "${goes_beside[$1]}" 2> /dev/null || true
    unset "goes_beside[$1]"
    return "$(cat "$beside_at/$1.status" || echo 1)"
}
# joined NAME: waits for it, shows what it said, and has its status.
joined() {
    local got=0
    ended "$1" || got=$?
    cat "$beside_at/$1.said"
    return "$got"
}
# none_beside: for the trap of a script that ends: what still goes on ends too.
none_beside() {
    local name
    for name in "${!goes_beside[@]}"; do
        if [ ! -e "$beside_at/$name.status" ]; then
            kill -USR1 "${goes_beside[$name]}" 2> /dev/null || true
            wait "${goes_beside[$name]}" 2> /dev/null || true
        fi
    done
    rm -rf "$beside_at"
}
