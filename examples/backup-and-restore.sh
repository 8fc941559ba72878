#!/usr/bin/env bash
# Builds vault, makes a store, serves it on the loopback, backs up a folder, lists the snapshots, restores
# the one that was stored, and compares.
#
# Usage: examples/backup-and-restore.sh [FOLDER]. Without a folder it makes a small one of its own. The port is
# 7071, or PORT. All that it makes lies in a temporary folder, which is removed at the end.
set -euo pipefail
folder=
[ $# -eq 0 ] || folder=$(cd "$1" && pwd)
# shellcheck source=examples/serving.sh
source "$(dirname "$0")/serving.sh" "${PORT:-7071}"

if [ -z "$folder" ]; then
    folder=$work/photos
    mkdir -p "$folder/2026/a trip" "$folder/empty"
    printf 'the sea' >"$folder/2026/a trip/sea.txt"
    printf 'the sea' >"$folder/2026/a trip/the same sea.txt"
    printf 'ä, ö, 海' >"$folder/2026/Grüße 海.txt"
    : >"$folder/nothing"
    head -c 3000000 /dev/urandom >"$folder/large"
fi

echo "== vault init"
"$vault" init "$work/store"
serve 4

echo "== vault backup $address laptop $folder"
stored=$("$vault" backup "$address" laptop "$folder") || [ $? -eq 3 ]
echo "$stored"
name=$(echo "$stored" | cut -d ' ' -f 2)

echo "== vault backup, once more: nothing new is sent"
"$vault" backup "$address" laptop "$folder" || [ $? -eq 3 ]

echo "== vault snapshots $address"
"$vault" snapshots "$address"

echo "== vault restore $address $name again"
"$vault" restore "$address" "$name" "$work/again"
wait "$server"
server=

diff -r --no-dereference "$folder" "$work/again"
echo "The same names and bytes: $(find "$work/again" -type f | wc -l) files, $(du -sh "$work/store" | cut -f 1) in the store."
