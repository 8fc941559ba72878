#!/usr/bin/env bash
# A week of two machines. Each day a folder of each changes, and both back it up, the laptop twice on the last day. Then a policy
# forgets what is older, a prune makes room, and a check finds no fault. Every snapshot that is left is restored, and compared
# with the copy that was taken at its backup; what was forgotten is gone.
#
# The days come from a small library that stands before the clock (moment.c), which a C compiler has to build.
# Usage: examples/a-week.sh. VAULT=PATH runs that program in place of the one that is built. The port is 7075, or PORT. All that
# it makes lies in a temporary folder, which is removed at the end.
set -euo pipefail
here=$(cd "$(dirname "$0")" && pwd)
# shellcheck source=examples/serving.sh
source "$here/serving.sh" "${PORT:-7075}"
cc -shared -fPIC -O1 -o "$work/moment.so" "$here/moment.c"

# The snapshots' names, by machine and moment.
declare -A names

# The second of a moment of the week: the first day is the 2nd of November 2026.
second_of() {
    date -u -d "2026-11-0$((1 + ${1%% *})) ${1#* }" +%s
}

# Backs up the folder of a machine at a moment, and keeps a copy of it.
backs_up() {
    local machine=$1 moment=$2
    cp -a "$work/$machine" "$work/copies/$machine $moment"
    AT=$(second_of "$moment") LD_PRELOAD=$work/moment.so says 0 "stored *" backup "$address" "$machine" "$work/$machine"
    names["$machine $moment"]=$(cut -d ' ' -f 2 <<<"$said")
}

# A file of so many bytes that look random.
writes() {
    mkdir -p "$(dirname "$1")"
    head -c "$2" /dev/urandom >"$1"
}

# What happens in a machine's folder on a day: the mail grows, a letter is written, another one changed and a third removed.
lives() {
    local folder=$work/$1 day=$2
    head -c 30000 /dev/urandom >>"$folder/mail"
    writes "$folder/letters/day $day" 2000
    writes "$folder/letters/$day" 50000
    rm "$folder/letters/$((day + 10))"
}

for number in $(seq 20); do
    writes "$work/laptop/letters/$number" 50000
done
writes "$work/laptop/mail" 3000000
mkdir -p "$work/laptop/empty" "$work/copies"
cp -a "$work/laptop" "$work/desktop"
writes "$work/desktop/films/one" 4000000

echo "== a store with packs of 1 MiB, and a week of backups"
says 0 "created *" init "$work/store" --min 65536 --max 1048576 --bits 17 --target 1048576
serve 1000
for day in 1 2 3 4 5 6 7; do
    for machine in laptop desktop; do
        lives "$machine" "$day"
        backs_up "$machine" "$day 08:00"
    done
done
writes "$work/laptop/letters/in the evening" 2000
backs_up laptop "7 20:00"

echo "== the snapshots, each with its second and machine"
for key in "${!names[@]}"; do
    echo "${names[$key]} $(second_of "${key#* }") ${key%% *}"
done | sort >"$work/wanted"
"$vault" snapshots "$address" | tee "$work/listed"
diff "$work/wanted" "$work/listed"

echo "== the last two of each machine stay, and the last one of each of the last four days"
before=$(du -s "$work/store" | cut -f 1)
for key in "laptop 1 08:00" "laptop 2 08:00" "laptop 3 08:00" "desktop 1 08:00" "desktop 2 08:00" "desktop 3 08:00"; do
    gone=${names[$key]}
    echo "forgotten $gone"
    unset "names[$key]"
done >"$work/wanted"
"$vault" forget "$address" --keep-last 2 --keep-daily 4 | tee "$work/told"
sort "$work/wanted" | diff - "$work/told"
says 0 "pruned *" prune "$address"
says 0 "clean 9 *" check "$address"

echo "== each is restored, and compared"
for key in "${!names[@]}"; do
    says 0 "complete *" restore "$address" "${names[$key]}" "$work/restored/$key"
    diff -r "$work/copies/$key" "$work/restored/$key"
done
says 1 "missing snapshot"$'\n'"snapshot $gone" restore "$address" "$gone" "$work/gone"
says 0 "" locks "$address"
after=$(du -s "$work/store" | cut -f 1)
echo "The same names and bytes in all ${#names[@]}. The store has $after KiB, and had $before before."
[ "$after" -lt "$before" ]
