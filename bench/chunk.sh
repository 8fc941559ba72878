#!/usr/bin/env bash
# Times how the kernel chunk of the program cases cuts 256 MiB of random bytes with the default parameters, less the
# making of the bytes, and restic's chunker library on the same bytes beside it. The least of five runs counts, and
# the digest of the lengths has to be the same. The library is the Debian package golang-github-restic-chunker-dev,
# to be built with golang-go. Usage: bench/chunk.sh
set -euo pipefail
. "$(dirname "$0")/kernels.sh"
here=$PWD/../../bench
size=268435456

made=$(least kernel random "$size")
cut=$(least kernel chunk "$size")
echo "chunks of 256 MiB: $((cut - made)) ms, lengths $(kernel chunk "$size" | cut -d ' ' -f 3)"
go=$(mktemp -d)
trap 'rm -rf "$go"' EXIT
sources="$(dpkg -L golang-github-restic-chunker-dev | sed -n 's|/src$||p')"
GO111MODULE=off GOPATH="$sources" GOCACHE="$go" go build -o "$go/restic_chunks" "$here/restic_chunks/main.go"
echo "restic's chunker: $("$go/restic_chunks" "$size")"
