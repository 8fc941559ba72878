#!/usr/bin/env bash
# Backs up a folder, and recovers it from the store's folder by scripts/recover.py: without vault, and without a server. Then the
# indexes are lost, and then a pack, and what is left is recovered. At last the store that docs/FORMATS.md shows is made.
#
# Usage: examples/recover.sh [VAULT]. VAULT is the program, where it is built already. The port is 7073, or PORT. All that it makes
# lies in a temporary folder, which is removed at the end.
set -euo pipefail
[ $# -eq 0 ] || export VAULT=$1
# shellcheck source=examples/serving.sh
source "$(dirname "$0")/serving.sh" "${PORT:-7073}"
recover=$(cd "$(dirname "$0")/../scripts" && pwd)/recover.py

# Waits until the server has served its connections.
served() {
    wait "$server"
    server=
}

folder=$work/photos
mkdir -p "$folder/2026/a trip" "$folder/empty"
printf 'the sea' >"$folder/2026/a trip/sea.txt"
printf 'the sea' >"$folder/2026/a trip/the same sea.txt"
printf 'ä, ö, 海' >"$folder/2026/Grüße 海.txt"
: >"$folder/nothing"
for number in 1 2 3; do
    head -c 2000000 /dev/urandom >"$folder/large $number"
done

echo "== a store with packs of 1 MiB, and a backup"
"$vault" init "$work/store" --min 65536 --max 1048576 --bits 17 --target 1048576
serve 1
stored=$("$vault" backup "$address" laptop "$folder")
echo "$stored"
name=$(echo "$stored" | cut -d ' ' -f 2)
served

echo "== the store is recovered"
"$recover" "$work/store" "$name" "$work/again"
diff -r "$folder" "$work/again"

echo "== without its indexes"
mkdir "$work/taken"
mv "$work/store/index/"* "$work/taken"
"$recover" "$work/store" "$name" "$work/without indexes"
diff -r "$folder" "$work/without indexes"
mv "$work/taken/"* "$work/store/index"

echo "== without one of its packs"
pack=$(find "$work/store/data" -type f -size +1024k | sort | head -n 1)
mv "$pack" "$work/taken"
status=0
"$recover" "$work/store" "$name" "$work/without a pack" || status=$?
[ "$status" -eq 1 ]
diff -rq "$folder" "$work/without a pack" >"$work/differs" || true
echo "what differs is left out, and nothing else differs:"
sed "s|$work/||g" "$work/differs"
grep -q . "$work/differs"
if grep -v "^Only in $folder" "$work/differs"; then exit 1; fi
mv "$work/taken/"* "$pack"
"$recover" "$work/store" "$name" "$work/with it again"
diff -r "$folder" "$work/with it again"

echo "== the store that docs/FORMATS.md shows"
mkdir -p "$work/shown/d"
printf 'abc' >"$work/shown/x"
rm -r "$work/store"
"$vault" init "$work/store" --min 64 --max 128 --bits 6 --target 1024
serve 1
"$vault" backup "$address" laptop "$work/shown"
served
for object in "$work/store/data/"*/* "$work/store/index/"*; do
    echo "${object#"$work/store/"}"
    grep -q "$(basename "$object")" "$(dirname "$0")/../docs/FORMATS.md"
done
echo "The same names and bytes, and the objects of the page."
