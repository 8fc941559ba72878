#!/usr/bin/env bash
# Real power cuts, as far as one machine can make them: a store on a file system of its own in a file (btrfs, ext4, XFS), of whose disk a copy
# is taken as it is at some moment, which is what a cut leaves; then the copy is mounted, and looked at by the program. The moments: behind a
# job that was acknowledged; and in the four lives in which a server is killed, or a sync of it fails, behind an index's rename or an unlink.
#
# Usage: trials/disks.sh [VAULT]. It wants root, strace and loop devices, and passes over a file system that can't be made or mounted here. Each
# line tells of one cut. Exit status 1 where one took something that was acknowledged; 3 where none could be tried.
set -euo pipefail
here=$(cd "$(dirname "$0")" && pwd)
vault=$(realpath "${1:-$here/../crates/vault/out/vault}")
work=$(mktemp -d)
numbers=(--min 64 --max 512 --bits 7 --target 2048)
server='' address='' wrong=0 tried=0

ends() {
    # A server under strace is a child of strace, and ends before it.
    [ -z "$server" ] || { pkill -9 -P "$server" || kill -9 "$server" || true; wait "$server" || true; } 2>/dev/null
    server=''
}
clears() {
    ends
    for place in "$work/cut" "$work/disk"; do
        ! mountpoint -q "$place" || umount -l "$place"
    done
    rm -rf "$work"
}
trap clears EXIT

# Serves a folder, with these words before the server, at a port that is free.
serves() {
    local folder=$1
    shift
    ends
    for _ in $(seq 50); do
        address=127.0.0.1:$((20000 + RANDOM % 12000))
        : >"$work/told"
        "$@" "$vault" serve "$folder/store" "$address" --connections 1000 >"$work/told" 2>&1 &
        server=$!
        until grep -q . "$work/told" || ! kill -0 "$server" 2>/dev/null; do sleep 0.05; done
        ! grep -q listening "$work/told" || return 0
        ends
    done
    echo "the store isn't served: $(cat "$work/told")"
    return 1
}

# A backup of the folder; the name of the snapshot, if it was acknowledged, is added to those that have to be there.
backs_up() {
    local said
    said=$("$vault" backup "$address" laptop "$work/source" 2>&1) || true
    [[ $said != "stored "* ]] || cut -d ' ' -f 2 <<<"$said" >>"$work/due"
}

# Which sync of a job's is the last one of index/: it is tried on a copy of the store.
sync_of_index() {
    ends
    rm -rf "$work/rehearsed"
    mkdir "$work/rehearsed"
    cp -a "$work/disk/store" "$work/rehearsed/store"
    cp "$work/due" "$work/due-before"
    serves "$work/rehearsed" strace -f -y -o "$work/calls" -e trace=fsync
    "$@" >"$work/shown" 2>&1 || true
    ends
    mv "$work/due-before" "$work/due"
    grep fsync "$work/calls" | grep -n 'store/index>' | tail -n 1 | cut -d : -f 1
}

# A copy of the disk as it is, which is looked at: what was acknowledged is there, and a check is clean.
cut_off() {
    local what=$1 said faults=0
    ends_without_sync
    mount -o loop "$work/image-cut" "$work/cut"
    serves "$work/cut" env
    "$vault" unlock "$address" --remove-all >"$work/shown" 2>&1 || faults=1
    said=$("$vault" check "$address" 2>&1) || faults=1
    while read -r name; do
        rm -rf "$work/again"
        "$vault" restore "$address" "$name" "$work/again" >"$work/shown" 2>&1 && diff -r "$work/source" "$work/again" >"$work/shown" || faults=1
    done <"$work/due"
    ends
    umount "$work/cut"
    tried=$((tried + 1)) wrong=$((wrong + faults))
    if [ "$faults" -eq 0 ]; then echo "$kind, $what: all is there"; else echo "$kind, $what: WRONG: $said"; fi
}

# The server goes on while the copy is taken; then it is ended.
ends_without_sync() {
    cp --sparse=always "$work/image" "$work/image-cut"
    ends
}

# A new store on a new disk, with one snapshot that was acknowledged, all of it synced.
begins() {
    ends
    ! mountpoint -q "$work/disk" || umount "$work/disk"
    rm -f "$work/image"
    truncate -s 400M "$work/image"
    mkfs."$kind" "${quiet[@]}" "$work/image" >"$work/shown" 2>&1
    mount -o loop "$work/image" "$work/disk"
    "$vault" init "$work/disk/store" "${numbers[@]}" >"$work/shown"
    : >"$work/due"
    serves "$work/disk" env
    backs_up
    sync -f "$work/disk"
}

forgets_all() {
    xargs -r "$vault" forget "$address" <"$work/due" >"$work/shown"
    : >"$work/due"
}
prunes() { "$vault" prune "$address"; }
killed_at() { serves "$work/disk" strace -f -o "$work/calls" -e trace=fsync -e "inject=fsync:signal=SIGKILL:when=$1"; }
failing_at() { serves "$work/disk" strace -f -o "$work/calls" -e trace=fsync -e "inject=fsync:error=EIO:when=$1"; }

# A server that is stopped so behind a prune's unlink, a second prune, and then a backup of the same files.
behind_an_unlink() {
    local how=$1 at
    begins
    forgets_all
    at=$(sync_of_index prunes)
    "${how}_at" "$at"
    prunes >"$work/shown" 2>&1 || true
    [ "$how" = failing ] || serves "$work/disk" env
    "$vault" unlock "$address" --remove-all >"$work/shown"
    prunes >"$work/shown" 2>&1 || true
    cut_off "$how behind an unlink, and a second prune"
}

# A server that is stopped so behind an index's rename, and then a backup of the same files, which is acknowledged.
behind_an_index() {
    local how=$1 at
    begins
    head -c 3000 /dev/urandom >"$work/source/more"
    : >"$work/due"
    at=$(sync_of_index backs_up)
    "${how}_at" "$at"
    backs_up
    [ "$how" = failing ] || serves "$work/disk" env
    backs_up
    cut_off "$how behind an index, and a second backup"
}

if [ "$(id -u)" -ne 0 ] || ! command -v strace >/dev/null; then
    echo "it wants root, and strace"
    exit 3
fi
mkdir "$work/disk" "$work/cut"
for kind in btrfs ext4 xfs; do
    quiet=(-q)
    truncate -s 400M "$work/image"
    if ! command -v "mkfs.$kind" >/dev/null || ! mkfs."$kind" -q "$work/image" 2>"$work/shown" || ! mount -o loop "$work/image" "$work/disk" 2>"$work/shown"; then
        echo "$kind can't be made or mounted here"
        continue
    fi
    umount "$work/disk"
    rm -rf "$work/source"
    mkdir "$work/source"
    head -c 3000 /dev/urandom >"$work/source/x"
    begins
    cut_off "behind a backup"
    for how in killed failing; do
        behind_an_unlink "$how"
        behind_an_index "$how"
    done
    umount "$work/disk"
done
echo "$tried cuts, $wrong wrong"
[ "$tried" -gt 0 ] || exit 3
[ "$wrong" -eq 0 ]
