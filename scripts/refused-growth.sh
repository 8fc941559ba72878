#!/usr/bin/env bash
# Runs each test named refused_growth of a crate with its first request for memory refused, then with its second, and
# so on, until it makes no more. The tests hold whichever request is refused: the answer is then the one for want of
# memory, and no other.
#
# The tests are the proved program that `rt test` builds. The requests are counted, and one of them refused, by a
# small library that stands before malloc and realloc (refuse.c). Usage: scripts/refused-growth.sh CRATE [MOST]. No more than
# MOST requests (20000) of one test are refused.
set -euo pipefail
most=${2:-20000}
cd "$(dirname "$0")/../crates/$1"
work=$(mktemp -d)
trap 'rm -rf "$work"' EXIT
../../scripts/rt test >"$work/tests" 2>&1 || { tail -n 5 "$work/tests" >&2; exit 1; }

gcc -shared -fPIC -O1 -o "$work/refuse.so" ../../scripts/refuse.c

program=$PWD/out/$1_tests
for test in $("$program" --list | grep -o '[a-z_:]*refused_growth[a-z_]*'); do
    for at in $(seq "$most"); do
        rm -f "$work/refused"
        if ! REFUSE=$at REFUSED=$work/refused LD_PRELOAD=$work/refuse.so "$program" "$test" >"$work/told" 2>&1; then
            echo "$test fails where request $at is refused:"
            cat "$work/told"
            exit 1
        fi
        [ -L "$work/refused" ] || break
    done
    echo "$test holds with each of its $((at - 1)) requests refused"
done
