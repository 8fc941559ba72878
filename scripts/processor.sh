#!/usr/bin/env bash
# Prints the newest sort of processor that this machine has and that `rt run --cpu` may be told: x86-64-v3, which has AVX2 and what
# goes with it, or x86-64-v2. A program that is built for a newer sort stops with an illegal instruction on an older one.
#
# Usage: scripts/processor.sh
set -euo pipefail
flags=" $(grep -m 1 '^flags' /proc/cpuinfo) "
for flag in avx avx2 bmi1 bmi2 f16c fma abm movbe xsave; do
    [[ $flags == *" $flag "* ]] || { echo x86-64-v2; exit; }
done
echo x86-64-v3
