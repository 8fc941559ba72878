#!/usr/bin/env bash
# Times a prune of 100,000 small files in 50 packs, of which every other one was forgotten, in a store in memory,
# less the backups and the forget. The least of five runs counts. Usage: bench/prune.sh
set -euo pipefail
. "$(dirname "$0")/kernels.sh"
count=100000
before=$(least kernel forget "$count")
echo "two backups and a forget: $before ms"
echo "prune: $(($(least kernel prune "$count") - before)) ms"
