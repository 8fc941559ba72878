#!/usr/bin/env bash
# Two machines back up into one store, and the server is killed in the middle of a backup and started again.
# The backup is run again; then all that was stored is restored, and compared. While a server runs, a second one on
# the same folder is refused; after the kill nothing stands in the way of the next.
#
# Usage: examples/server-killed.sh. The port is 7072, or PORT. All that it makes lies in a temporary folder,
# which is removed at the end.
set -euo pipefail
# shellcheck source=examples/serving.sh
source "$(dirname "$0")/serving.sh" "${PORT:-7072}"

# How many packs are in the store.
packs() {
    find "$work/store/data" -type f | wc -l
}

mkdir -p "$work/laptop/letters" "$work/desktop/films"
head -c 20000000 /dev/urandom >"$work/laptop/letters/all"
cp "$work/laptop/letters/all" "$work/desktop/letters of the laptop"
head -c 60000000 /dev/urandom >"$work/desktop/films/one"
head -c 40000000 /dev/urandom >"$work/desktop/films/two"

echo "== a store with packs of 1 MiB, so that a backup takes many steps"
"$vault" init "$work/store" --min 65536 --max 1048576 --bits 17 --target 1048576
serve 100

echo "== a second server on the same folder is refused"
status=0
"$vault" serve "$work/store" 127.0.0.1:0 >"$work/second" 2>&1 || status=$?
echo "it ended with status $status and the text: $(cat "$work/second")"
[ "$status" -eq 1 ]
[ "$(cat "$work/second")" = "shelf failed" ]

echo "== the laptop backs up"
laptop=$("$vault" backup "$address" laptop "$work/laptop")
echo "$laptop"
before=$(packs)

echo "== the desktop backs up, and the server is killed meanwhile"
"$vault" backup "$address" desktop "$work/desktop" >"$work/cut" 2>&1 &
client=$!
for _ in $(seq 2000); do
    [ "$(packs)" -lt $((before + 8)) ] || break
    sleep 0.01
done
kill -9 "$server"
wait "$server" 2>/dev/null || true
server=
status=0
wait "$client" || status=$?
echo "the backup ended with status $status and the text: $(cat "$work/cut")"
[ "$status" -eq 1 ]
echo "the store has $(packs) packs, $before of them the laptop's"

echo "== the server is started again, and the desktop backs up again"
serve 100
desktop=$("$vault" backup "$address" desktop "$work/desktop")
echo "$desktop"

echo "== the lock that the cut connection left behind is listed, and removed"
"$vault" locks "$address"
"$vault" unlock "$address" --remove-all

echo "== both snapshots are restored, and compared"
"$vault" snapshots "$address"
for machine in laptop desktop; do
    name=$(echo "${!machine}" | cut -d ' ' -f 2)
    "$vault" restore "$address" "$name" "$work/$machine-again"
    diff -r "$work/$machine" "$work/$machine-again"
done
echo "The same names and bytes. $(du -sh "$work/store" | cut -f 1) in the store, for $(du -shc "$work/laptop" "$work/desktop" | tail -n 1 | cut -f 1) of files."
