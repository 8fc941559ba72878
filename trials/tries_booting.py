"""Two machines that are booted, on which the package's units run as the manual has them."""
import subprocess

from machines import ADDRESS, PACKAGES, Machine, joined
from program import matches
from tries_installing import a_system, package
from trying import WAIT, awaits, holds, needs, new_folder, same, trial
from yards import entries, filled

TUNNEL = "/etc/ssh/jibrekt-tunnel"
EXAMPLES = "/usr/share/doc/jibrekt/examples"


def keeps_a_store(machine):
    """The machine with the store, as the manual has it."""
    matches(machine.runs("vault", "init", "/var/lib/jibrekt/store", user="jibrekt"), r"created [0-9a-f]{32}\n")
    machine.runs("cp", f"{EXAMPLES}/jibrekt-guard.nft", "/etc/")
    machine.runs("systemctl", "enable", "--now", "jibrekt-guard.service", "jibrekt-serve.service", "jibrekt-prune.timer", "jibrekt-check.timer")
    machine.runs("cp", f"{EXAMPLES}/jibrekt-tunnel.conf", "/etc/ssh/sshd_config.d/")
    machine.runs("install", "-m", "644", "/dev/null", f"{TUNNEL}.keys")
    machine.runs("sshd", "-t")
    machine.runs("systemctl", "reload", "ssh")


def has_a_tunnel(machine, store):
    """Another machine with its key, as the manual has it."""
    (machine.root / "etc/ssh/ssh_config.d/jibrekt.conf").write_text("Host store.example\n    HostName 10.9.0.1\n")
    machine.runs("ssh-keygen", "-q", "-t", "ed25519", "-N", "", "-f", TUNNEL)
    (store.root / f"{TUNNEL[1:]}.keys").write_text((machine.root / f"{TUNNEL[1:]}.pub").read_text())
    told = machine.asked("ssh", "-o", "StrictHostKeyChecking=accept-new", "-i", TUNNEL, "jibrekt-tunnel@store.example", "true")
    holds("open failed" in told, told)
    rule = (machine.root / f"{EXAMPLES[1:]}/jibrekt-guard.nft").read_text()
    (machine.root / "etc/jibrekt-guard.nft").write_text(rule.replace("{ root, jibrekt, jibrekt-tunnel }", "{ root }"))
    machine.runs("systemctl", "enable", "--now", "jibrekt-guard.service", "jibrekt-tunnel.service", "jibrekt-backup.timer")


@trial(is_long=True)
def booted_machines_back_up_by_their_units():
    """Two machines back up by their units, one through the tunnel; others are refused. The server comes back when it is killed, and when
    its machine starts again, with all snapshots; check and prune end well, and a folder that is lost is restored."""
    needs("unshare", "nsenter", "ip", "mount", "pivot_root")
    files = {"a": bytes(range(256)) * 4096, "b/c": b"the sea", "d": b""}
    with a_system(*PACKAGES) as root:
        other = root.parent / "laptop"
        subprocess.run(["cp", "-a", root, other], check=True, timeout=WAIT)
        made = package(new_folder())
        with Machine(root, "store") as store, Machine(other, "laptop") as laptop:
            joined(store, laptop)
            for machine in store, laptop:
                machine.installs(made)
                filled(machine.root / "srv/photos", files)
                (machine.root / "etc/jibrekt.env").write_text("FOLDER=/srv/photos\n")
            keeps_a_store(store)
            has_a_tunnel(laptop, store)
            holds("stored " in store.starts("jibrekt-backup.service"), "the store's machine backs up")
            awaits(lambda: laptop.hosts() == ["store"], "a tunnel")
            name = matches(laptop.starts("jibrekt-backup.service"), r".*\nstored ([0-9a-f]{64}) 0 0\n.*", "what the other one sent")[0]
            same(store.hosts(), ["laptop", "store"])
            same([machine.asked("vault", "snapshots", ADDRESS, user="nobody") for machine in (store, laptop)], ["not reached\n"] * 2)

            store.runs("systemctl", "kill", "--signal=KILL", "jibrekt-serve.service")
            awaits(lambda: store.runs("systemctl", "show", "--property=NRestarts", "--value", "jibrekt-serve.service") == "1\n", "it is started again")
            awaits(lambda: store.hosts() == ["laptop", "store"], "all snapshots are there")
            store.reboots()
            awaits(lambda: store.hosts() == ["laptop", "store"], "all snapshots are there")
            same(store.asked("vault", "snapshots", ADDRESS, user="nobody"), "not reached\n")
            holds("clean 2 " in store.starts("jibrekt-check.service"), "a check")
            holds("pruned 0 0\n" in store.starts("jibrekt-prune.service"), "a prune")

            joined(store, laptop)
            awaits(lambda: laptop.hosts() == ["laptop", "store"], "the tunnel is there again")
            laptop.runs("rm", "-r", "/srv/photos")
            same(laptop.runs("vault", "restore", ADDRESS, name, "/srv/photos"), f"complete {len(entries(root / 'srv/photos'))}\n")
            same(entries(other / "srv/photos"), entries(root / "srv/photos"))
