#!/usr/bin/env bash
# Times which of 100,000 snapshots of five hosts, and of a million, a policy keeps, less the making of them. The least of five
# runs counts. Usage: bench/keep.sh
set -euo pipefail
. "$(dirname "$0")/kernels.sh"
for count in 100000 1000000; do
    made=$(least kernel rows "$count")
    echo "which of $count snapshots are kept: $(($(least kernel keep "$count") - made)) ms, and making them $made ms"
done
