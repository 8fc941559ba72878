#!/usr/bin/env bash
# A store that only appends: a snapshot is backed up, a forget of it is refused, a prune has nothing to do, and it is restored
# and compared. Then the store is served as any other, and the snapshot is forgotten and pruned.
#
# Usage: examples/append-only.sh. VAULT=PATH runs that program in place of the one that is built. The port is 7078, or PORT. All
# that it makes lies in a temporary folder, which is removed at the end.
set -euo pipefail
# shellcheck source=examples/serving.sh
source "$(dirname "$0")/serving.sh" "${PORT:-7078}"

mkdir "$work/photos"
echo one >"$work/photos/one"
"$vault" init "$work/store"
serve 10 --append-only
name=$("$vault" backup "$address" laptop "$work/photos" | cut -d ' ' -f 2)
says 1 "refused 14" forget "$address" "$name"
says 0 "pruned 0 0" prune "$address"
says 0 "clean 1 1 1 2" check "$address"
says 0 "complete 1" restore "$address" "$name" "$work/restored"
diff -r "$work/photos" "$work/restored"
stop
serve 10
says 0 "forgotten $name" forget "$address" "$name"
says 0 "pruned 1 0" prune "$address"
echo "as it has to be"
