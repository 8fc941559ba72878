#!/usr/bin/env bash
# Times a backup of 64 MiB of random bytes from memory into a shelf in memory, and a restore of it, from outside, and the
# parts that it is made of: making the bytes, cutting them, and naming them once. The least of five runs counts. Usage: bench/lockstep.sh
set -euo pipefail
. "$(dirname "$0")/kernels.sh"
size=67108864

random=$(least kernel random "$size")
echo "making 64 MiB of random bytes: $random ms"
echo "cutting them: $(($(least kernel chunk "$size") - random)) ms"
echo "the name of 64 MiB: $(least kernel name "$size") ms"
backup=$(least kernel backup "$size")
echo "backup of 64 MiB: $((backup - random)) ms, $((size / 1000 / (backup - random))) MB/s"
restore=$(least kernel restore "$size")
echo "restore of it: $((restore - backup)) ms, $((size / 1000 / (restore - backup))) MB/s"
