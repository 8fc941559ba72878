#!/usr/bin/env bash
# Times a check of a store in memory with 100,000 small files in 50 packs, of which every other one was forgotten, less the
# backups and the forget. The least of five runs counts. Usage: bench/check.sh
set -euo pipefail
. "$(dirname "$0")/kernels.sh"
count=100000
before=$(least kernel forget "$count")
echo "two backups and a forget: $before ms"
echo "check: $(($(least kernel check "$count") - before)) ms"
