#!/usr/bin/env bash
# Has systemd-analyze look at these units, with another program in the place of each that they start, so that none need be
# installed for it. It prints nothing where all is well.
#
# Usage: examples/systemd/verify.sh [PROGRAM]
set -euo pipefail
cd "$(dirname "$0")"
program=$(command -v "${1:-true}")
work=$(mktemp -d)
trap 'rm -rf "$work"' EXIT
for unit in *.service *.timer; do
    sed -E "s|^(Exec[A-Za-z]*=)[^ ]+|\1$program|" "$unit" >"$work/$unit"
done
systemd-analyze verify --man=no "$work"/*
