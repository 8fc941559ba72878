"""Machines that are booted: systems of their own, each with systemd as its first process, and a cable between them."""
import os
import subprocess
from pathlib import Path

from tries_installing import System
from trying import WAIT, Skipped, awaits, holds

PACKAGES = "systemd-sysv", "dbus", "nftables", "iproute2", "openssh-client", "openssh-server"
ADDRESS = "127.0.0.1:7070"
PARTS = "mount", "pid", "uts", "ipc", "net", "cgroup"
# Makes the folder $1 the root of a machine named $2, and becomes its first process.
BOOT = r"""
set -e
hostname "$2"
mount --bind "$1" "$1"
cd "$1"
mount -t proc proc proc; mount --bind proc/sys proc/sys; mount -o remount,bind,ro proc/sys
mount -t sysfs -o ro sysfs sys; mount -t cgroup2 cgroup2 sys/fs/cgroup
for it in run tmp dev; do mount -t tmpfs -o mode=755 tmpfs $it; done
chmod 1777 tmp; mkdir dev/pts dev/shm
mount -t devpts -o newinstance,ptmxmode=666,mode=620 devpts dev/pts
ln -s pts/ptmx dev/ptmx; ln -s /proc/self/fd dev/fd
for it in null:3 zero:5 full:7 random:8 urandom:9; do mknod -m 666 dev/${it%:*} c 1 ${it#*:}; done
pivot_root . mnt; umount -l mnt
exec env -i container=trial PATH=/usr/sbin:/usr/bin:/sbin:/bin /sbin/init --system
"""


class Machine(System):
    """A system that is booted. Its processes, its network and its name are its own."""

    def __init__(self, root, name):
        super().__init__(root)
        mounted = [line.split()[1] for line in Path("/proc/mounts").read_text().splitlines() if line.split()[2] == "cgroup2"]
        if not mounted:
            raise Skipped("no cgroup2 is mounted")
        self.name, self.group = name, Path(mounted[0]) / f"vault-{os.getpid()}-{name}"
        (root / "etc/hostname").write_text(f"{name}\n")

    def __enter__(self):
        try:
            self.group.mkdir()
        except OSError as why:
            raise Skipped(f"no group of processes can be made: {why}") from why
        try:
            self.boots()
        except BaseException:
            self.__exit__()
            raise
        return self

    def __exit__(self, *_):
        self.process.kill()
        self.process.wait(WAIT)
        awaits(lambda: "populated 0" in (self.group / "cgroup.events").read_text(), f"{self.name} has ended")
        for it in sorted((it for it in self.group.rglob("*") if it.is_dir()), reverse=True):
            it.rmdir()
        self.group.rmdir()

    def boots(self):
        apart = ["unshare", *(f"--{part}" for part in PARTS), "--fork", "--kill-child", "--propagation=private"]
        into = ["bash", "-c", 'echo $$ >"$0/cgroup.procs" && exec "$@"', self.group]
        how = {it: subprocess.DEVNULL for it in ("stdin", "stdout", "stderr")}
        self.process = subprocess.Popen([*into, *apart, "bash", "-c", BOOT, "boot", self.root, self.name], **how)
        awaits(lambda: self.process.poll() is not None or self.asked("systemctl", "is-system-running") in ("running\n", "degraded\n"), self.name)
        if self.process.poll() is not None:
            raise Skipped("no system can be booted")

    def first(self):
        """The number of its first process, here; none before it is systemd."""
        of = self.process.pid
        number = Path(f"/proc/{of}/task/{of}/children").read_text().strip() if self.process.poll() is None else ""
        return number if number and Path(f"/proc/{number}/comm").read_text() == "systemd\n" else ""

    def asked(self, *command, user="root", status=None):
        """What a command tells; it may end with any status where none is named."""
        within = ["nsenter", "--target", self.first() or "0", *(f"--{part}" for part in (*PARTS, "root", "wd")), "runuser", "-u", user, "--"]
        how = {"stdin": subprocess.DEVNULL, "stdout": subprocess.PIPE, "stderr": subprocess.STDOUT, "env": {"PATH": "/usr/sbin:/usr/bin:/sbin:/bin"}}
        run = subprocess.run([*within, *command], text=True, timeout=WAIT, **how)
        holds(status in (None, run.returncode), f"{self.name}: {' '.join(command)}: {run.returncode}, {run.stdout}")
        return run.stdout

    def runs(self, *command, user="root"):
        return self.asked(*command, user=user, status=0)

    def reboots(self):
        self.asked("systemctl", "reboot")
        self.process.wait(WAIT)
        self.boots()

    def starts(self, unit):
        """Starts a unit that ends, anew where it waits for its next try: what the journal has of it."""
        self.runs("systemctl", "restart", unit)
        self.runs("journalctl", "--sync")
        return self.runs("journalctl", "--no-pager", "--output=cat", "--unit", unit)

    def hosts(self):
        """The hosts of the snapshots, or why there is no list."""
        return sorted(row.split(" ")[-1] for row in self.asked("vault", "snapshots", ADDRESS).splitlines())


def joined(store, laptop):
    """A cable between two machines; the laptop has a name for the other one."""
    cable = ["ip", "link", "add", "cable", "netns", store.first(), "type", "veth", "peer", "name", "cable", "netns", laptop.first()]
    subprocess.run(cable, check=True, timeout=WAIT)
    for machine, end in (store, "10.9.0.1/24"), (laptop, "10.9.0.2/24"):
        machine.runs("ip", "address", "add", end, "dev", "cable")
        machine.runs("ip", "link", "set", "cable", "up")
