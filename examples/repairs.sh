#!/usr/bin/env bash
# Loses one part of a store after the other, and repairs it as docs/MANUAL.md says: the ledger, the config, empty folders, a
# snapshot, an index, a pack. At last the store goes back to an older copy. Each time a snapshot is restored, and compared.
#
# Usage: examples/repairs.sh [VAULT]. VAULT is the program, where it is built already. The port is 7074, or PORT. All that it makes
# lies in a temporary folder, which is removed at the end.
set -euo pipefail
[ $# -eq 0 ] || export VAULT=$1
# shellcheck source=examples/serving.sh
source "$(dirname "$0")/serving.sh" "${PORT:-7074}"
numbers=(--min 65536 --max 1048576 --bits 17 --target 1048576)

# Starts the server, and has a command end with this status and print this text. Then ends the server.
served_says() {
    serve 10
    says "$@"
    stop
}

# A backup of the folder, of which this is printed; `name` is the snapshot's name then.
backs_up() {
    local printed=$work/printed
    serve 10
    "$vault" backup "$address" laptop "$work/photos" >"$printed"
    stop
    cat "$printed"
    # shellcheck disable=SC2053
    [[ $(cat "$printed") == $1 ]]
    name=$(cut -d ' ' -f 2 "$printed")
}

# Restores a snapshot, and compares.
restores() {
    rm -rf "$work/again"
    served_says 0 "complete *" restore "$address" "$1" "$work/again"
    diff -r "$work/photos" "$work/again"
}

mkdir -p "$work/photos/empty" "$work/photos/2026"
for number in 1 2 3; do
    head -c 2000000 /dev/urandom >"$work/photos/2026/$number"
done
"$vault" init "$work/store" "${numbers[@]}"
backs_up "stored *"
first=$name
cd "$work/store"

echo "== the ledger is lost"
rm ledger
served_says 1 "refused 10" snapshots "$address"
served_says 1 "refused 10" locks "$address"
printf '\0\1\0\0\0\0\0\0\0\0\0\0' >ledger
restores "$first"
[ "$(od -An -tx1 ledger | tr -d ' \n')" = 000100000000000100000000 ]

echo "== the config is lost"
rm config
served_says 1 "refused 5" snapshots "$address"
"$vault" init . "${numbers[@]}"
restores "$first"

echo "== the config is damaged"
echo '{' >config
served_says 1 badreply snapshots "$address"
"$vault" init . 2>"$work/printed" && exit 1
[ "$(cat "$work/printed")" = exists ]
mv config "$work/config"
"$vault" init . "${numbers[@]}"
restores "$first"
backs_up "stored * 0 0"

echo "== a copy without the empty folders"
find . -type d -empty -delete
echo new >"$work/photos/new"
served_says 1 "refused 10" backup "$address" laptop "$work/photos"
mkdir -p tmp index snapshots && printf 'data/%02x\n' $(seq 0 255) | xargs mkdir -p
serve 10
"$vault" unlock "$address" --remove-all
stop
backs_up "stored * 2 *"
restores "$name"

echo "== a snapshot is damaged"
second=$name
echo >>"snapshots/$second"
served_says 1 "bad snapshot"$'\n'"snapshot $second" snapshots "$address"
served_says 0 "forgotten $second" forget "$address" "$second"
backs_up "stored * 0 0"

echo "== an index is damaged"
second=$name
index=$(find index -type f | sort | head -n 1)
echo >>"$index"
bad=$(find data index snapshots -type f | while read -r file; do
    [ "$(sha256sum <"$file" | cut -c 1-64)" = "${file##*/}" ] || echo "$file"
done)
[ "$bad" = "$index" ]
served_says 1 "bad index"$'\n'"index ${index##*/}" restore "$address" "$second" "$work/none"
mv "$index" "$work/bad index"
backs_up "stored * * *"
restores "$second"

echo "== a pack is lost"
lost=$(find data -type f -size +1024k | sort | head -n 1)
lost=$(basename "$lost")
rm "data/${lost:0:2}/$lost"
rm -rf "$work/none"
served_says 1 "missing pack"$'\n'"pack $lost" restore "$address" "$second" "$work/none"
backs_up "stored * 0 0"
grep -l "$lost" index/* | while read -r index; do
    python3 -c 'import json, sys; t = json.load(sys.stdin); t["packs"] = [p for p in t["packs"] if p["id"] != sys.argv[1]]; print(json.dumps(t))' "$lost" <"$index" >tmp/new
    mv tmp/new "index/$(sha256sum <tmp/new | cut -c 1-64)" && mv "$index" ..
done
rm -rf "$work/none"
served_says 1 "missing *" restore "$address" "$second" "$work/none"
backs_up "stored * * *"
restores "$second"

echo "== back to an older copy"
cd "$work"
cp -a store copy
echo newer >"$work/photos/newer"
backs_up "stored * 2 *"
mv store before
mv copy store
served_says 1 "missing snapshot"$'\n'"snapshot $name" restore "$address" "$name" "$work/gone"
serve 10
"$vault" unlock "$address" --remove-all
stop
backs_up "stored * 2 *"
restores "$name"
echo "Each time the same names and bytes."
