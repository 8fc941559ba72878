#!/usr/bin/env bash
# Times vault by real processes over the loopback, in the steps that users have, and restic and borg on the same files in the same
# minutes, where they are installed. The files: one large one, many small ones, and a mixed tree (bench/files.py).
#
# A line has a step and a program; then the program's processor time divided by restic's; then seconds of the clock, and of
# processors, which are for vault the client's and the server's; the greatest resident set of each, in MiB; and the MiB
# that the store has afterwards. restic encrypts what it stores, and its compression is off here; borg has neither. `single` is restic
# on one processor (GOMAXPROCS=1), with a store of its own. Of a second backup restic and borg pass over files whose times haven't
# changed; "all read" has them read as vault does. A restore of vault's is on the disk when it ends; those of the others needn't be.
#
# Usage: bench/backup.sh [MIB [FILES [MIXED]]]. Without words: one file of 512 MiB, 20,000 files of 2 KiB, a tree of 256 MiB.
# With 64 2000 32 it takes about a minute. VAULT=PATH times that program in place of the one that is built; PROCESSOR is handed to
# scripts/vault.sh. RESTIC=PATH and BORG=PATH are other programs than those on the path. The port is 7082, or PORT. All that it makes
# lies in a temporary folder, which is removed at the end.
set -euo pipefail
here=$(cd "$(dirname "$0")" && pwd)
declare -A sizes=([large]=${1:-512} [small]=${2:-20000} [mixed]=${3:-256})
address=127.0.0.1:${PORT:-7082}
vault=${VAULT:-}
[ -n "$vault" ] || vault=$("$here/../scripts/vault.sh" ${PROCESSOR:+"$PROCESSOR"})
vault=$(realpath "$vault")
work=$(mktemp -d)
trap 'rm -rf "$work"' EXIT
export RESTIC_PASSWORD=none RESTIC_CACHE_DIR=$work/cache BORG_BASE_DIR=$work/base BORG_UNKNOWN_UNENCRYPTED_REPO_ACCESS_IS_OK=yes
programs=(restic single vault borg)
restic=${RESTIC:-restic}
borg=${BORG:-borg}

single=$restic

has() {
    [ "$1" = vault ] || command -v "${!1}" >/dev/null
}

# Times a command, in FILE: seconds of the clock, seconds of processors in user and system mode, and KiB resident at most.
timed() {
    local file=$1
    shift
    command time -f '%e %U %S %M' -o "$file" "$@"
}

# Runs commands of vault, with ";" between them, against a server.
run_vault() {
    local count=1 word words=() server
    for word in "$@"; do
        if [ "$word" = ";" ]; then count=$((count + 1)); fi
    done
    timed "$work/server" "$vault" serve "$work/store" "$address" --connections "$count" >"$work/listens" 2>&1 &
    server=$!
    until grep -qs listening "$work/listens"; do
        kill -0 "$server"
        sleep 0.02
    done
    for word in "$@"; do
        words+=("$(if [ "$word" = ";" ]; then echo "&& $vault"; else printf %q "$word"; fi)")
    done
    timed "$work/client" sh -c "$vault ${words[*]}" >"$work/told"
    wait "$server"
}

run_restic() {
    timed "$work/client" "$restic" --quiet "$@" >"$work/told"
}

run_borg() {
    timed "$work/client" sh -c "cd '$work/again' && '$borg' $1" >"$work/told"
}

# Runs a command with restic on one processor.
singly() {
    GOMAXPROCS=1 RESTIC_REPOSITORY=$work/single RESTIC_CACHE_DIR=$work/cache-single "$@"
}

# Does a step with a program; `folder` is what is backed up.
step() {
    local name=$2
    rm -f "$work/server"
    case "$1: $name" in
    "single: "*) singly step restic "$name" ;;
    "vault: backup" | "vault: again" | "vault: again, all read" | "vault: edited")
        run_vault backup "$address" host "$folder" ;;
    "vault: restore")
        run_vault restore "$address" "$(cut -d ' ' -f 2 "$work/stored")" "$work/again/vault" ;;
    "vault: list") run_vault snapshots "$address" ;;
    "vault: check") run_vault check "$address" ;;
    "vault: forget and prune") run_vault forget "$address" --keep-last 1 ";" prune "$address" ;;
    "restic: backup" | "restic: again" | "restic: edited") run_restic backup --compression off "$folder" ;;
    "restic: again, all read") run_restic backup --compression off --force "$folder" ;;
    "restic: restore") run_restic restore latest --target "$work/again/${RESTIC_REPOSITORY##*/}" ;;
    "restic: list") run_restic snapshots ;;
    "restic: check") run_restic check --read-data ;;
    "restic: forget and prune") run_restic forget --keep-last 1 --prune --max-unused 0 --compression off ;;
    "borg: backup" | "borg: again" | "borg: edited")
        run_borg "create --compression none ::$name '$folder'" ;;
    "borg: again, all read") run_borg "create --compression none --files-cache disabled ::read '$folder'" ;;
    "borg: restore") run_borg "extract ::edited" ;;
    "borg: list") run_borg list ;;
    "borg: check") run_borg "check --verify-data" ;;
    "borg: forget and prune") run_borg "prune --keep-last 1 && '$borg' compact --threshold 0" ;;
    esac
    if [ "$1" = vault ] && grep -q '^stored' "$work/told"; then cp "$work/told" "$work/stored"; fi
}

# Prints the line of what a step took: STEP PROGRAM, and the folder of what is stored.
line() {
    local files=("$work/client")
    [ ! -e "$work/server" ] || files+=("$work/server")
    awk -v step="$1" -v program="$2" -v stored="$(du -sk "$3" | cut -f 1)" -v of="$work/restic-seconds" '
        { processors[NR] = $2 + $3; resident[NR] = sprintf("%d", $4 / 1024) }
        NR == 1 { wall = $1 }
        END {
            both = processors[1] + processors[2]
            if (program == "restic") { print both >of }
            else { (getline restic <of) }
            if (program == "restic") { restic = both }
            ratio = restic > 0 ? sprintf("%.2f", both / restic) : "-"
            each = NR > 1 ? sprintf("%.2f + %.2f", processors[1], processors[2]) : sprintf("%.2f", both)
            memory = NR > 1 ? resident[1] " + " resident[2] : resident[1]
            printf "| %-29s | %-7s | %9s | %7.2f | %15s | %11s | %7.1f |\n", step, program, ratio, wall, each, memory, stored / 1024
        }' "${files[@]}"
}

echo "$(lscpu | sed -n 's/^Model name: *//p'), $(nproc) processors"
for program in "${programs[@]}"; do
    ! has "$program" || case $program in
    vault) "$vault" --version ;;
    restic) "$restic" version ;;
    borg) "$borg" --version ;;
    esac
done
printf '| %-29s | %-7s | %9s | %7s | %15s | %11s | %7s |\n' step program "of restic" clock "processors" MiB "stored"
echo '|---|---|---|---|---|---|---|'
for kind in large small mixed; do
    folder=$work/$kind
    "$here/files.py" make "$kind" "$folder" "${sizes[$kind]}"
    export RESTIC_REPOSITORY=$work/restic BORG_REPO=$work/borg
    "$vault" init "$work/store" >"$work/told"
    ! has restic || "$restic" --quiet init >"$work/told"
    ! has single || singly "$single" --quiet init >"$work/told"
    ! has borg || "$borg" init --encryption none >"$work/told"
    for name in backup again "again, all read" edited restore list check "forget and prune"; do
        [ "$name" != edited ] || "$here/files.py" edit "$folder"
        rm -rf "$work/again" "$work/restic-seconds"
        mkdir "$work/again"
        for program in "${programs[@]}"; do
            has "$program" || continue
            step "$program" "$name"
            stored=$work/$program
            [ "$program" != vault ] || stored=$work/store
            line "$kind: $name" "$program" "$stored"
        done
        [ "$name" != restore ] || diff -r "$folder" "$work/again/vault"
    done
    rm -rf "$work/store" "$work/restic" "$work/single" "$work/borg" "$work/again" "$work/cache" "$work/cache-single" "$work/base" "$folder"
done
