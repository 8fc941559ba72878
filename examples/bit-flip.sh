#!/usr/bin/env bash
# One bit of the largest pack is flipped, in its middle, at its begin, and at its end. Each time a check tells which pack it is
# (status 3), and a restore gives out nothing that is wrong: it ends with an error, and what it wrote until then has the right bytes. Once the
# bit is flipped back the check is clean, and all is restored and compared.
#
# Usage: examples/bit-flip.sh. VAULT=PATH runs that program in place of the one that is built. The port is 7080, or PORT. All that
# it makes lies in a temporary folder, which is removed at the end.
set -euo pipefail
# shellcheck source=examples/serving.sh
source "$(dirname "$0")/serving.sh" "${PORT:-7080}"

# Flips the lowest bit of a byte of a file.
flips() {
    local byte
    byte=$(od -An -tu1 -j "$2" -N 1 "$1")
    # shellcheck disable=SC2059
    printf "\\x$(printf %x $((byte ^ 1)))" | dd of="$1" bs=1 seek="$2" conv=notrunc status=none
}

mkdir -p "$work/photos/2026"
for number in $(seq 9); do
    head -c 700000 /dev/urandom >"$work/photos/2026/$number"
done
printf 'the sea' >"$work/photos/sea.txt"
"$vault" init "$work/store" --min 65536 --max 1048576 --bits 17 --target 4194304
serve 100
says 0 "stored *" backup "$address" laptop "$work/photos"
name=$(cut -d ' ' -f 2 <<<"$said")
pack=$(find "$work/store/data" -type f -printf '%s %p\n' | sort -n | tail -n 1 | cut -d ' ' -f 2)
size=$(stat -c %s "$pack")

for at in $((size / 2)) 0 $((size - 1)); do
    echo "== the bit of byte $at of $size is flipped in the pack $(basename "$pack")"
    flips "$pack" "$at"
    says 3 "*fault pack $(basename "$pack") name*" check "$address"
    rm -rf "$work/again"
    status=0
    "$vault" restore "$address" "$name" "$work/again" >"$work/told" 2>&1 || status=$?
    echo "vault restore: $(cat "$work/told"), status $status"
    diff -rq "$work/photos" "$work/again" >"$work/differs" || true
    if grep -v "^Only in $work/photos" "$work/differs"; then exit 1; fi
    if [ "$status" -eq 0 ]; then
        [ ! -s "$work/differs" ]
    else
        grep -q . "$work/differs"
        echo "what is lacking is lacking whole: $(wc -l <"$work/differs") of the folder's entries, and no byte is wrong"
    fi
    flips "$pack" "$at"
done

echo "== as it was"
says 0 "clean 1 *" check "$address"
rm -rf "$work/again"
says 0 "complete *" restore "$address" "$name" "$work/again"
diff -r "$work/photos" "$work/again"
echo "The same names and bytes."
