#!/usr/bin/env bash
# Times a server over a folder: 10,000 locks, each after a ticket and before its unlock; 10,000 puts of 8 bytes; a listing of a
# store with 10,000 packs, and of one with 100,000; and 10,000 puts beside as many locks and tickets as a store has. What is printed
# is the server's processor time, with its start.
# Usage: bench/requests.sh PROGRAM FOLDER. PROGRAM is vault; FOLDER isn't there yet, best on a file system in memory, since
# else the disk's syncs are timed.
set -euo pipefail
vault=$(realpath "$1")
folder=$2
here=$(cd "$(dirname "$0")" && pwd)
port=7079
work=$(mktemp -d)
trap 'rm -rf "$work"' EXIT

# Runs so many requests of a sort against a server of one connection.
time_requests() {
    local text=$1 answered
    shift
    command time -f '%U %S' -o "$work/spent" "$vault" serve "$folder" "127.0.0.1:$port" --connections 1 >"$work/listens" &
    until grep -qs listening "$work/listens"; do
        sleep 0.1
    done
    answered=$("$here/requests.py" "$port" "$@")
    wait
    awk -v text="$text" -v answered="$answered" '{ printf "%s: %d requests, %d ms\n", text, answered, ($1 + $2) * 1000 }' "$work/spent"
}

"$vault" init "$folder" >"$work/made"
time_requests "10,000 locks" locks 10000
time_requests "10,000 puts" puts 10000
time_requests "a listing of 10,000 packs" lists 1
python3 - "$folder/data" <<'MORE'
import sys
from hashlib import sha256
from pathlib import Path
for number in range(10_000, 100_000):
    data = number.to_bytes(8, "big")
    name = sha256(data).hexdigest()
    Path(sys.argv[1], name[:2], name).write_bytes(data)
MORE
time_requests "a listing of 100,000 packs" lists 1
time_requests "10,000 puts beside 255 locks" crowded 10000
