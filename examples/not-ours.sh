#!/usr/bin/env bash
# What is somebody else's stays as it is: the folder of a store that another server has, a folder that is no store, and the
# rest of a disk that is full.
#
# A second server on the same folder ends (shelf failed), and the first one goes on. Where a folder has things of somebody's under
# the names that a store needs, neither `init` nor `serve` makes or changes anything. Where the disk is full a backup ends
# (refused 10) and makes no snapshot; what stood before is sound, and is restored and compared.
#
# The full disk is a small file system in memory, where one can be mounted; else no file of the server's may grow above a limit.
# Usage: examples/not-ours.sh. VAULT=PATH runs that program in place of the one that is built. The port is 7081, or PORT. All that
# it makes lies in a temporary folder, which is removed at the end.
set -euo pipefail
# shellcheck source=examples/serving.sh
source "$(dirname "$0")/serving.sh" "${PORT:-7081}"

mounted=
clean() {
    [ -z "$mounted" ] || umount "$mounted"
}

# The names, sizes, times and bytes in a folder.
all_of() {
    (cd "$1" && find . -printf '%p %s %T@ %m\n' | sort && find . -type f -print0 | sort -z | xargs -0 sha256sum)
}

mkdir "$work/photos" "$work/more"
head -c 300000 /dev/urandom >"$work/photos/one"
cp "$work/photos/one" "$work/more/one"
head -c 30000000 /dev/urandom >"$work/more/two"

echo "== a second server on the same folder"
"$vault" init "$work/store"
serve 10
says 1 "shelf failed" serve "$work/store" 127.0.0.1:0
says 0 "stored *" backup "$address" laptop "$work/photos"
says 0 "complete 1" restore "$address" "$(cut -d ' ' -f 2 <<<"$said")" "$work/again"
diff -r "$work/photos" "$work/again"
stop
rm -rf "$work/store" "$work/again"

echo "== folders of somebody else's"
mkdir -p "$work/mine/data/letters" "$work/yours/tmp" "$work/theirs"
echo hello >"$work/mine/data/letters/one"
echo hello >"$work/yours/tmp/photo"
echo hello >"$work/theirs/snapshots"
for folder in mine yours theirs; do
    all_of "$work/$folder" >"$work/before"
    says 1 "shelf failed" init "$work/$folder"
    says 1 "shelf failed" serve "$work/$folder" 127.0.0.1:0
    all_of "$work/$folder" | diff "$work/before" -
done

echo "== a full disk"
mkdir "$work/store"
if mount -t tmpfs -o size=16m tmpfs "$work/store" 2>"$work/refused"; then
    mounted=$work/store
    echo "a file system of 16 MiB"
else
    echo "no file may grow above 512 KiB"
    # The signal that tells of the limit is not to end the server: its writes fail then.
    trap '' XFSZ
    ulimit -S -f 512
fi
"$vault" init "$work/store" --min 65536 --max 1048576 --bits 17 --target 1048576
serve 100
says 0 "stored *" backup "$address" laptop "$work/photos"
name=$(cut -d ' ' -f 2 <<<"$said")
says 1 "refused 10" backup "$address" laptop "$work/more"
stop
ulimit -S -f unlimited
serve 100
says 0 "$name *" snapshots "$address"
says 0 "complete 1" restore "$address" "$name" "$work/again"
diff -r "$work/photos" "$work/again"
stop
[ "$(find "$work/store/tmp" -type f | wc -l)" -eq 0 ]
if [ -n "$mounted" ]; then
    mount -o remount,size=100m "$work/store"
fi
serve 100
"$vault" unlock "$address" --remove-all
says 0 "clean 1 *" check "$address"
says 0 "stored *" backup "$address" laptop "$work/more"
rm -rf "$work/again"
says 0 "complete 2" restore "$address" "$(cut -d ' ' -f 2 <<<"$said")" "$work/again"
diff -r "$work/more" "$work/again"
stop
echo "The same names and bytes."
