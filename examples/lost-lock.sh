#!/usr/bin/env bash
# A backup whose connection is cut off in the middle, and that connects again and goes on. What it found in the store at its
# start it doesn't send; so it has to be there still at its end.
#
# First its lock stays: a forget by another machine is refused meanwhile (busy), and the backup ends (stored). Then its lock is
# removed, and the other machine forgets the snapshot that had the same bytes, and prunes: the backup ends (fenced), makes no
# snapshot, and is run again. Each time the store is checked, and every snapshot is restored and compared.
#
# Where restic and borg are installed the second is done to them beside it: a backup that reads a slow pipe has its lock removed,
# the snapshot with the same bytes is deleted, and its room is made; then the pipe goes on. What each tells is printed. (restic
# tries for a minute and a half to remove its lock, which is gone.)
#
# Usage: examples/lost-lock.sh. VAULT=PATH runs that program in place of the one that is built. The ports are 7076 and 7077, or
# PORT and the next. All that it makes lies in a temporary folder, which is removed at the end.
set -euo pipefail
here=$(cd "$(dirname "$0")" && pwd)
port=${PORT:-7076}
# shellcheck source=examples/serving.sh
source "$here/serving.sh" "$port"

# What runs beside the script, and is ended at its end.
beside=()
clean() {
    [ ${#beside[@]} -eq 0 ] || kill "${beside[@]}" 2>/dev/null || true
}

# Waits until a file has this text.
awaits() {
    for _ in $(seq 600); do
        ! grep -qs "$2" "$1" || return 0
        sleep 0.1
    done
    echo "no $2 in $1: $(cat "$1")" >&2
    return 1
}

# A store that is served, with two snapshots of the desktop: one of the bytes that the laptop has, too, and one of others.
has_a_store() {
    rm -rf "$work/store"
    "$vault" init "$work/store" --min 65536 --max 1048576 --bits 17 --target 1048576 >"$work/made"
    serve 1000
    says 0 "stored *" backup "$address" desktop "$work/same"
    same=$(cut -d ' ' -f 2 <<<"$said")
    says 0 "stored *" backup "$address" desktop "$work/others"
    others=$(cut -d ' ' -f 2 <<<"$said")
}

# Begins the laptop's backup, whose connection is cut off after so many bytes.
begins() {
    rm -f "$work/go"
    "$here/proxy.py" $((port + 1)) "$port" "$1" "$work/go" >"$work/proxy" &
    beside=($!)
    awaits "$work/proxy" listening
    "$vault" backup "127.0.0.1:$((port + 1))" laptop "$work/laptop" --retry 1 >"$work/backup" 2>&1 &
    backup=$!
    beside+=("$backup")
    awaits "$work/proxy" cut
    echo "the connection of the laptop's backup is cut off"
}

# Lets the backup go on, to the end that is wanted.
goes_on() {
    local status=0
    touch "$work/go"
    wait "$backup" || status=$?
    kill "${beside[0]}"
    beside=()
    said=$(cat "$work/backup")
    echo "the laptop's backup ends: $said, status $status"
    # shellcheck disable=SC2053
    [[ $status -eq $1 && $said == $2 ]]
}

# Restores a snapshot, and compares it with a folder.
restores() {
    rm -rf "$work/again"
    says 0 "complete *" restore "$address" "$1" "$work/again"
    diff -r "$work/$2" "$work/again"
}

mkdir "$work/same" "$work/others" "$work/laptop"
head -c 5000000 /dev/urandom >"$work/same/bytes"
head -c 3000000 /dev/urandom >"$work/others/bytes"
cp "$work/same/bytes" "$work/laptop/the same bytes"
head -c 20000000 /dev/urandom >"$work/laptop/to be sent"

echo "== the lock stays"
has_a_store
begins 8000000
says 1 busy forget "$address" "$same"
goes_on 0 "stored *"
laptop=$(cut -d ' ' -f 2 <<<"$said")
says 0 "forgotten $same" forget "$address" "$same"
says 0 "pruned *" prune "$address"
says 0 "clean 2 *" check "$address"
restores "$laptop" laptop
restores "$others" others
stop

echo "== the lock is removed"
has_a_store
begins 8000000
says 0 "removed *" unlock "$address" --remove-all
says 0 "forgotten $same" forget "$address" "$same"
says 0 "pruned *" prune "$address"
goes_on 1 fenced
says 0 "clean 1 *" check "$address"
restores "$others" others
says 0 "stored *" backup "$address" laptop "$work/laptop"
restores "$(cut -d ' ' -f 2 <<<"$said")" laptop
says 0 "clean 2 *" check "$address"
stop

# Prints what a command told, of a long text the first and the last lines, and its status.
shows() {
    local lines
    sed "s|$work/||g; s/^/    /" "$2" >"$work/shown"
    lines=$(wc -l <"$work/shown")
    if [ "$lines" -le 16 ]; then
        cat "$work/shown"
    else
        head -n 8 "$work/shown"
        echo "    .. ($((lines - 14)) lines)"
        tail -n 6 "$work/shown"
    fi
    echo "    status $1"
}

# Runs a command, and prints it, what it tells, and its status.
tells() {
    local status=0 words=$*
    echo "\$ ${words//"$work/"/}"
    "$@" >"$work/told" 2>&1 </dev/null || status=$?
    shows "$status" "$work/told"
}

# Begins a backup that reads a pipe, which gives the bytes that are stored already, and then waits.
begins_with_pipe() {
    rm -f "$work/go" "$work/half" "$work/pipe"
    mkfifo "$work/pipe"
    {
        cat "$work/same/bytes"
        touch "$work/half"
        until [ -e "$work/go" ]; do sleep 0.1; done
        cat "$work/laptop/to be sent"
    } >"$work/pipe" 2>"$work/faults" &
    beside=($!)
    echo "\$ $* <pipe &"
    "$@" <"$work/pipe" >"$work/backup" 2>&1 &
    backup=$!
    beside+=("$backup")
    until [ -e "$work/half" ]; do sleep 0.1; done
    sleep 3
}

# Lets the pipe go on, and prints how the backup ends.
pipe_goes_on() {
    local status=0
    touch "$work/go"
    echo "\$ wait (for the backup, while the pipe goes on)"
    wait "$backup" || status=$?
    wait "${beside[0]}" || true
    beside=()
    shows "$status" "$work/backup"
}

# Prints how what a command gives out differs from what the pipe gave.
compares() {
    local status=0
    echo "\$ $* | cmp - what-the-pipe-gave"
    "$@" 2>"$work/faults" | cmp - <(cat "$work/same/bytes" "$work/laptop/to be sent") >"$work/told" 2>&1 || status=$?
    cat "$work/faults" >>"$work/told"
    shows "$status" "$work/told"
}

if command -v restic >/dev/null; then
    echo "== restic, with the lock removed"
    export RESTIC_PASSWORD=none RESTIC_REPOSITORY=$work/restic RESTIC_CACHE_DIR=$work/desktop-cache
    tells restic version
    tells restic --quiet init
    tells restic --quiet backup --host desktop "$work/same"
    RESTIC_CACHE_DIR=$work/laptop-cache begins_with_pipe restic backup --host laptop --stdin --stdin-filename all
    tells restic unlock --remove-all
    tells restic --quiet forget --prune latest
    pipe_goes_on
    tells restic snapshots
    tells restic --quiet check --read-data
    compares restic --quiet dump latest all
fi

if command -v borg >/dev/null; then
    echo "== borg, with the lock removed"
    export BORG_UNKNOWN_UNENCRYPTED_REPO_ACCESS_IS_OK=yes BORG_REPO=$work/borg BORG_BASE_DIR=$work/desktop-base
    tells borg --version
    tells borg init --encryption none
    tells borg create ::same "$work/same"
    BORG_BASE_DIR=$work/laptop-base begins_with_pipe borg create --stdin-name all ::all -
    tells borg break-lock
    tells borg delete ::same
    tells borg compact
    pipe_goes_on
    tells borg list
    tells borg check --verify-data
    compares borg extract --stdout ::all
fi
echo "== vault lost nothing: the same names and bytes each time"
