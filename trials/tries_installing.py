"""The program as it is installed: by the script, and as a Debian package in a system of its own."""
import os
import re
import subprocess
import tempfile
from contextlib import contextmanager
from pathlib import Path

from program import LISTENING, free_port, matches
from trying import OPTIONS, ROOT, WAIT, Skipped, holds, needs, new_folder, same, trial
from yards import filled, in_folder

# How long a system is waited for that comes over the network, in seconds.
FETCH = 1200


def printed(*command, **how):
    """What a command that ends well prints."""
    run = subprocess.run([str(word) for word in command], cwd=ROOT, capture_output=True, text=True, timeout=WAIT, stdin=subprocess.DEVNULL, **how)
    same(run.returncode, 0, f"{' '.join(map(str, command))}: {run.stdout}{run.stderr}")
    return run.stdout


def package(folder, *version):
    """The package of the program that is tried, made in this folder."""
    return ROOT / printed("scripts/deb.sh", folder, OPTIONS.program, *version).strip()


@in_folder
def the_installer_says_what_it_makes(yard):
    prefix = Path(yard.at("prefix"))
    made = printed("scripts/install.sh", prefix, OPTIONS.program).splitlines()
    there = sorted(str(it) for it in prefix.rglob("*") if it.is_file())
    same(sorted(made), there, "what was made")
    same(printed(prefix / "bin/vault", "--version"), printed(OPTIONS.program, "--version"))
    units = "".join(unit.read_text() for unit in (prefix / "lib/systemd/system").glob("*.service"))
    same(set(re.findall(r"^ExecStart=(\S*/vault) ", units, re.M)), {f"{prefix}/bin/vault"}, "what the units start")
    holds("/usr/local" not in units, units)
    again = printed("scripts/install.sh", prefix, OPTIONS.program).splitlines()
    same((again, sorted(str(it) for it in prefix.rglob("*") if it.is_file())), (made, there), "a second time")


@in_folder
def the_installer_refuses_a_folder_that_is_no_path(yard):
    for words in ([], ["somewhere"], ["/a", "b", "c"]):
        run = subprocess.run([ROOT / "scripts/install.sh", *words], cwd=yard.at(""), capture_output=True, text=True, timeout=WAIT)
        same((run.returncode, run.stdout), (2, ""), f"with {words}")
        holds(run.stderr, f"with {words} nothing is told")


@in_folder
def a_package_has_no_error(yard):
    needs("dpkg-deb", "strip", "lintian")
    made = package(yard.at(""))
    told = subprocess.run(["lintian", "--fail-on", "error", made], capture_output=True, text=True, timeout=WAIT)
    same(told.returncode, 0, told.stdout + told.stderr)


@contextmanager
def a_system(*packages):
    """A fresh Debian in a folder, with these packages."""
    needs("debootstrap", "dpkg-deb", "strip", "chroot")
    if os.geteuid() != 0:
        raise Skipped("it needs root")
    with tempfile.TemporaryDirectory(prefix="vault-system-", dir="/var/tmp") as folder:
        root = Path(folder) / "root"
        included = [f"--include={','.join(packages)}"] if packages else []
        fetch = ["debootstrap", "--variant=minbase", *included, "stable", root]
        if subprocess.run(fetch, capture_output=True, timeout=FETCH).returncode != 0:
            raise Skipped("no Debian can be fetched")
        yield root


class System:
    """Commands within a system."""

    def __init__(self, root):
        self.root = root

    def runs(self, *command, user="root"):
        return printed("chroot", f"--userspec={user}", self.root, *command, env={"PATH": "/usr/sbin:/usr/bin:/sbin:/bin"})

    def lacks(self, place):
        holds(not (self.root / place).exists(), f"{place} is there")

    def installs(self, made):
        (self.root / made.name).write_bytes(made.read_bytes())
        self.runs("dpkg", "--install", made.name)

    @contextmanager
    def serves(self):
        """The server as its own user, over the folder that the package made."""
        address = f"127.0.0.1:{free_port()}"
        serve = ["chroot", "--userspec=jibrekt", str(self.root), "/usr/bin/vault", "serve", "/var/lib/jibrekt/store", address, "--connections", "100"]
        process = subprocess.Popen(serve, stdin=subprocess.DEVNULL, stdout=subprocess.PIPE, stderr=subprocess.PIPE)
        try:
            same(process.stdout.readline(), LISTENING)
            yield address
        finally:
            process.kill()
            process.communicate()

    def gives_back(self, snapshot, files, to):
        """The snapshot is restored by the installed program, byte for byte."""
        with self.serves() as address:
            same(self.runs("vault", "restore", address, snapshot, to), f"complete {len(files)}\n")
            matches(f"0|{self.runs('vault', 'check', address)}|", r"0\|clean 1 \d+ \d+ \d+\n\|")
        for name, text in files.items():
            same((self.root / to / name).read_bytes(), text, name)


@trial(is_long=True)
def a_package_is_installed_upgraded_and_removed():
    """Users and the folder of the store come with it, no unit is enabled, an upgrade keeps the store, and so does taking the package away."""
    files = {"a": b"a" * 1000, "b": bytes(range(256)) * 4096, "c": b""}
    with a_system() as root:
        system, made = System(root), new_folder()
        filled(root / "srv/photos", files)
        system.installs(package(made))
        same(system.runs("vault", "--version"), printed(OPTIONS.program, "--version"))
        same(system.runs("stat", "-c", "%U %a", "/var/lib/jibrekt"), "jibrekt 700\n")
        holds(system.runs("getent", "passwd", "jibrekt-tunnel"), "there is no user jibrekt-tunnel")
        same([str(it) for it in (root / "etc/systemd/system").rglob("jibrekt*")], [], "units that are enabled")
        matches(system.runs("vault", "init", "/var/lib/jibrekt/store", user="jibrekt"), r"created [0-9a-f]{32}\n")
        with system.serves() as address:
            snapshot = matches(system.runs("vault", "backup", address, "laptop", "srv/photos"), r"stored ([0-9a-f]{64}) .*\n")[0]
        system.gives_back(snapshot, files, "srv/first")

        system.installs(package(made, "99.0-1"))
        matches(system.runs("dpkg-query", "-W", "jibrekt"), "jibrekt\t99.0-1\n?")
        system.gives_back(snapshot, files, "srv/upgraded")

        system.runs("dpkg", "--purge", "jibrekt")
        system.lacks("usr/bin/vault")
        system.lacks("usr/lib/systemd/system/jibrekt-serve.service")
        same(system.runs("stat", "-c", "%U", "/var/lib/jibrekt/store"), "jibrekt\n", "the store stays")

        system.installs(package(made))
        system.gives_back(snapshot, files, "srv/again")
