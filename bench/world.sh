#!/usr/bin/env bash
# Times `vault play` on a script of a hundred clients and so many events, most of them messages delivered late or again, and
# compares what it prints with the reference of the cases. The least of five runs counts.
# Usage: bench/world.sh PROGRAM [EVENTS]. PROGRAM is vault.
set -euo pipefail
vault=$(realpath "$1")
events=${2:-100000}
here=$(cd "$(dirname "$0")" && pwd)
. "$here/least.sh"
work=$(mktemp -d)
trap 'rm -rf "$work"' EXIT

play() {
    "$vault" play <"$work/script"
}

"$here/world.py" "$events" "$work/script" "$work/wanted"
diff "$work/wanted" <(play)
echo "$events events of 100 clients: $(least play) ms"
