#!/usr/bin/env bash
# A store in a folder of a cluster's file system: GlusterFS, which keeps three copies of each file on three bricks. Two mounts of it
# stand for two machines. A store that is served at one mount is refused at the other; a backup goes on while a brick is killed; the
# server is killed, and the store is served from the other mount; when the brick is back and has healed, all is as it was.
#
# It wants root and Debian's glusterfs-server. Its daemon wants an address that isn't loopback, so it runs in a network of its own,
# which is removed at the end, as all else that this makes.
#
# Usage: examples/on-a-cluster.sh. The port is 7076, or PORT. Where this machine can't run it, it says why, and ends with status 0.
set -euo pipefail

for tool in glusterd gluster mount.glusterfs ip nsenter; do
    command -v "$tool" >/dev/null || { echo "skipped: there is no $tool"; exit 0; }
done
[ "$(id -u)" -eq 0 ] || { echo "skipped: it wants root"; exit 0; }
# shellcheck source=examples/serving.sh
source "$(dirname "$0")/serving.sh" "${PORT:-7076}"

network=vault-$$
holder=
ours=10.213.$((RANDOM % 250)).1
volume=vault$$

# Runs a command in the network of the cluster; what it mounts is seen outside.
within() {
    nsenter --target "$holder" --net "$@"
}

# The processes of this cluster, and of no other.
cluster() {
    ip netns pids "$network" 2>/dev/null || true
}

clean() {
    for mount in one two; do
        ! mountpoint -q "$work/$mount" || umount -l "$work/$mount"
    done
    for process in $(cluster); do
        kill -9 "$process" 2>/dev/null || true
    done
    ip netns delete "$network" 2>/dev/null || true
    ip link delete "${network}a" 2>/dev/null || true
}

# Serves the store at a mount.
serve_at() {
    ln -sfn "$work/$1" "$work/mounted"
    : >"$work/server"
    "$vault" serve "$work/mounted/store" "$address" --connections 1000 >"$work/server" 2>&1 &
    server=$!
    for _ in $(seq 600); do
        ! grep -qs listening "$work/server" || return 0
        kill -0 "$server" 2>/dev/null || break
        sleep 0.1
    done
    echo "the server doesn't listen:" "$(cat "$work/server")" >&2
    return 1
}

# Waits until a command succeeds.
until_so() {
    for _ in $(seq 600); do
        ! "$@" || return 0
        sleep 0.2
    done
    echo "it didn't come to this: $*" >&2
    return 1
}

# The bricks that run, a line for each with its folder and its process; the table that people read breaks long names.
bricks() {
    within gluster --mode=script --xml volume status "$volume" | awk -F '[<>]' '
        $2 == "path" { path = $3 }
        $2 == "status" { runs = $3 }
        $2 == "pid" && runs == 1 && path ~ /brick-.$/ { print path, $3 }'
}
has_bricks() { [ "$(bricks | wc -l)" -eq "$1" ]; }
is_healed() {
    within gluster --mode=script volume heal "$volume" info | awk '/^Number of entries/ { left += $NF; told++ } END { exit !(told == 3 && left == 0) }'
}

echo "== a cluster of three bricks, mounted twice"
if ! ip netns add "$network" 2>"$work/network"; then
    echo "skipped: no network can be made: $(cat "$work/network")"
    exit 0
fi
ip netns exec "$network" sleep infinity &
holder=$!
disown "$holder"
ip link add "${network}a" type veth peer name "${network}b" netns "$network"
within ip address add "$ours/24" dev "${network}b"
within ip link set "${network}b" up
within ip link set lo up
ip link set "${network}a" up
mkdir -p "$work/cluster" "$work/one" "$work/two" "$work"/brick-{a,b,c}
cat >"$work/cluster/glusterd.vol" <<CONFIG
volume management
    type mgmt/glusterd
    option working-directory $work/cluster
    option transport-type socket
    option run-directory $work/cluster
end-volume
CONFIG
within glusterd --volfile "$work/cluster/glusterd.vol" --pid-file "$work/cluster/pid" --log-file "$work/cluster/log"
until_so within gluster --mode=script volume list >/dev/null 2>&1
within gluster --mode=script volume create "$volume" replica 3 "$ours:$work/brick-a" "$ours:$work/brick-b" "$ours:$work/brick-c" force
within gluster --mode=script volume start "$volume"
until_so has_bricks 3
for mount in one two; do
    if ! within mount -t glusterfs "$ours:/$volume" "$work/$mount" || ! mountpoint -q "$work/$mount"; then
        echo "skipped: this machine can't mount GlusterFS"
        exit 0
    fi
done

echo "== a store in it, served at the first mount; at the second one it is refused meanwhile"
"$vault" init "$work/one/store" --min 65536 --max 1048576 --bits 17 --target 1048576
serve_at one
says 1 "shelf failed" serve "$work/two/store" 127.0.0.1:0

echo "== a backup goes on while a brick is killed"
mkdir -p "$work/laptop/films"
head -c 30000000 /dev/urandom >"$work/laptop/films/one"
head -c 30000000 /dev/urandom >"$work/laptop/films/two"
"$vault" backup "$address" laptop "$work/laptop" >"$work/stored" 2>&1 &
client=$!
until_so sh -c "[ \"\$(find '$work/one/store/data' -type f | wc -l)\" -ge 8 ]"
brick=$(bricks | awk '$1 ~ /brick-b$/ { print $2 }')
kill -9 "$brick"
wait "$client"
cat "$work/stored"
snapshot=$(cut -d ' ' -f 2 "$work/stored")
has_bricks 2

echo "== the server is killed, and the store is served from the second mount"
kill -9 "$server"
wait "$server" 2>/dev/null || true
server=
until_so serve_at two
says 0 "clean *" check "$address"
"$vault" restore "$address" "$snapshot" "$work/again"
diff -r "$work/laptop" "$work/again"

echo "== the brick is back, and heals"
within gluster --mode=script volume start "$volume" force
until_so has_bricks 3
until_so is_healed
says 0 "clean *" check "$address"
"$vault" restore "$address" "$snapshot" "$work/once-more"
diff -r "$work/laptop" "$work/once-more"
echo "The same names and bytes, and three copies of each file again."
