#!/usr/bin/env bash
# Proves and builds vault, and prints the program's path. The first time all of it is proved, about an hour; standard error tells
# crate by crate how many are left.
#
# Usage: scripts/vault.sh [PROCESSOR]. PROCESSOR is the oldest sort that the program is to run on: x86-64-v2, which is any
# of the last fifteen years, or x86-64-v3. Without the word it is the newer of the two that this machine has.
set -euo pipefail
here=$(cd "$(dirname "$0")" && pwd)
crate=$(cd "$here/../crates/vault" && pwd)
processor=${1:-$("$here/processor.sh")}
"$here/libraries.py" >&2
told=$(mktemp)
trap 'rm -f "$told"' EXIT
echo "proving and building vault itself: five minutes, the first time" >&2
(cd "$crate" && "$here/rt" run --cpu "$processor" -- --version) >"$told" 2>&1 || { cat "$told" >&2; exit 1; }
echo "$crate/out/vault"
