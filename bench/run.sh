#!/usr/bin/env bash
# Times the kernels of the program cases at 16 MiB, from outside, and openssl's SHA-256 of as many bytes
# beside them. The least of five runs counts. Usage: bench/run.sh
set -euo pipefail
. "$(dirname "$0")/kernels.sh"
size=16777216

bytes=$(mktemp)
trap 'rm -f "$bytes"' EXIT
head -c "$size" /dev/urandom >"$bytes"
echo "start-up alone: $(least kernel name 1) ms"
echo "name of 16 MiB: $(least kernel name "$size") ms"
echo "pack of 16 MiB, sealed and read: $(least kernel pack "$size") ms"
echo "Put frames of 1 GiB, fed and read: $(least kernel frames 1073741824) ms"
echo "openssl dgst -sha256 of 16 MiB: $(least openssl dgst -sha256 "$bytes") ms"
