# shellcheck shell=bash
# What the examples share that run a server: a script sources this file with the port to serve on. It builds vault, unless VAULT
# is the path of the program, and gives the script
#   vault     the program's path
#   work      a temporary folder, which is removed at the end
#   address   where the server listens: the port on the loopback
#   serve N   serves the store in "$work/store" to N connections, with any options behind N, and waits until it listens
#   stop      ends the server
#   server    the server's process; a script that has seen it end sets it to nothing, else it is ended at the end
#   says STATUS TEXT WORDS..
#             runs vault with these words. It has to end with this status, and to print this text, a pattern of the shell,
#             both outputs together; `said` is what it printed
#   clean     a script's own function, if it has one, is called before the folder is removed
address=127.0.0.1:$1
work=$(mktemp -d)
server=
end() {
    [ -z "$server" ] || stop
    ! declare -F clean >/dev/null || clean
    rm -rf "$work"
}
trap end EXIT

serve() {
    : >"$work/server"
    "$vault" serve "$work/store" "$address" --connections "$@" >"$work/server" 2>&1 &
    server=$!
    for _ in $(seq 100); do
        grep -qs listening "$work/server" && return
        sleep 0.1
    done
    echo "the server doesn't listen:" "$(cat "$work/server")" >&2
    return 1
}

stop() {
    kill "$server" 2>/dev/null || true
    wait "$server" 2>/dev/null || true
    server=
}

says() {
    local wanted=$1 text=$2 status=0
    shift 2
    said=$("$vault" "$@" 2>&1) || status=$?
    local words="vault $*"
    echo "${words//"$work/"/}: ${said//"$work/"/}"
    # shellcheck disable=SC2053
    [[ $status -eq $wanted && $said == $text ]] && return
    echo "not as it has to be: status $status, and not $wanted with the text $text" >&2
    exit 1
}

if [ -n "${VAULT:-}" ]; then
    vault=$(realpath "$VAULT")
else
    echo "== build (the first time this proves all of it: about an hour)"
    vault=$("$(dirname "${BASH_SOURCE[0]}")/../scripts/vault.sh")
fi
