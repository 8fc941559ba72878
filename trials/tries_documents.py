"""The documents: their links, the files and commands that they name, and their blocks of commands, which are run."""
import os
import re
import shlex
import shutil
import subprocess
import sys

from program import Server, free_port, told
from trying import OPTIONS, ROOT, WAIT, Skipped, holds, needs, same, trial
from yards import SMALL, Yard, filled, stored

PAGES = sorted(it for it in ROOT.rglob("*.md") if not {"out", ".git"} & set(it.relative_to(ROOT).parts))
TOPS = "scripts|docs|examples|crates|trials|bench|more-edits"


def prose_of(page):
    """A page without its blocks of code."""
    return re.sub(r"^```.*?^```$", "", page.read_text(), flags=re.M | re.S)


def blocks_of(page):
    return re.findall(r"^```\w*\n(.*?)^```$", page.read_text(), re.M | re.S)


def anchors_of(page):
    """The names by which a page's headings are linked to."""
    found = []
    for title in re.findall(r"^#+ (.*)$", prose_of(page), re.M):
        plain = re.sub(r"\[([^\]]*)\]\([^)]*\)", r"\1", title).lower()
        anchor = re.sub(r"[^\w\- ]", "", plain).replace(" ", "-")
        found.append(anchor + (f"-{found.count(anchor)}" if anchor in found else ""))
    return found


def links_of(page):
    """Where its links lead to."""
    return re.findall(r"\[[^\]]*\]\(([^)\s]+)\)", re.sub(r"`[^`\n]*`", "", prose_of(page)))


def broken(page, link):
    """Whether a link within the repository leads nowhere."""
    path, _, anchor = link.partition("#")
    target = (page.parent / path).resolve() if path else page
    return not target.exists() or bool(anchor) and (target.suffix != ".md" or anchor not in anchors_of(target))


@trial
def links_lead_somewhere():
    links = [(page, link) for page in PAGES for link in links_of(page) if not re.match(r"[a-z]+:", link)]
    same([f"{page.relative_to(ROOT)}: {link}" for page, link in links if broken(page, link)], [])
    holds(len(links) > 20 and broken(ROOT / "README.md", "docs/MANUAL.md#away") and broken(ROOT / "README.md", "away.md"), "the links that are found")


@trial
def files_that_are_named_are_there():
    """Paths between backticks: as they stand, or with `*` and capital words for anything; what a build makes is passed over."""
    lacking, count = [], 0
    for page in PAGES:
        for path in re.findall(rf"`((?:{TOPS})/[\w./*-]*)(?: [^`]*)?`", prose_of(page)):
            count += 1
            pattern = re.sub(r"\b[A-Z]+\b(?!\.md)|\brepo_x\b|\bModule\b", "*", path.rstrip("/"))
            if "out" not in path.split("/") and not list(ROOT.glob(pattern)):
                lacking.append(f"{page.relative_to(ROOT)}: {path}")
    same(lacking, [])
    holds(count > 40, f"{count} paths are named")


def helps():
    """What the help of each command has."""
    commands = re.findall(r"^  ([a-z]+)  ", told("--help"), re.M)
    return {command: told(command, "--help") for command in commands if command != "help"}


def named_in(text):
    """The commands of vault that a text names, each with its options."""
    for line in re.sub(r"\\\n", " ", text).splitlines():
        for rest in re.findall(r"(?<![\w./-])vault (?!vault )([a-z][^|;&]*)", line):
            words = rest.replace("`", " ").replace("[", " ").replace("]", " ").split()
            yield words[0], [word.split("=")[0] for word in words if re.match(r"--[a-z]", word)]


@trial
def edits_find_their_places():
    """Each edit that the prover has to refuse turns texts that stand there once, also those that the gate doesn't try."""
    sys.path.insert(0, str(ROOT / "scripts"))
    import kit
    rt, edits = kit.load(), [*ROOT.glob("must-fail/*/*.edit"), *ROOT.glob("more-edits/*/*.edit")]
    for edit in edits:
        _, why = rt.edited(edit.read_text(encoding="utf-8"), str(ROOT / "crates" / edit.parent.name))
        holds(not why, f"{edit.relative_to(ROOT)}: {why}")
    holds(len(edits) > 800, f"there are {len(edits)}")


@trial
def commands_that_are_named_are_there():
    """Each `vault COMMAND --option` of the documents, the man pages, the examples and the units is in the command's help."""
    known, wrong, count = helps(), [], 0
    texts = [(page, "\n".join(blocks_of(page) + re.findall(r"`([^`\n]+)`", prose_of(page)))) for page in PAGES]
    texts += [(page, page.read_text().replace("\\-", "-").replace("\\fB", "").replace("\\fR", "").replace("\\fI", "")) for page in (ROOT / "docs/man").glob("*.1")]
    texts += [(unit, "\n".join(re.findall(r"^ExecStart=\S*/(vault .*)$", unit.read_text(), re.M))) for unit in (ROOT / "examples/systemd").glob("*.service")]
    for page, text in texts:
        for command, options in named_in(text):
            if page.suffix == ".1" and command not in known:
                continue
            count += 1
            for option in options or [""]:
                if command not in known or option and not re.search(rf"{option}\b", known[command]):
                    wrong.append(f"{page.relative_to(ROOT)}: vault {command} {option}")
    same(sorted(set(wrong)), [])
    holds(count > 60, f"{count} commands are named")


# The blocks of the manual and of the page for newcomers that can't be run, by how they begin, and why.
NOT_RUN = {
    "scripts/vault.sh": "it proves everything: an hour",
    "examples/a-week.sh": "it is tried by itself, and the gate is what runs the trials",
    "scripts/deb.sh": "it is tried by itself",
    "sudo install crates": "it makes a user and services on this machine",
    "sudo cp examples": "it makes services on this machine",
    "laptop$ sudo install": "it wants another machine",
    "laptop$  ssh": "it wants two more machines",
    "sudo nft": "it changes what this machine lets through",
    "sudo systemctl": "it stops or starts services of this machine",
    "sudo cp -a": "it puts a store in its place, and starts a service of this machine",
    "vault check 127.0.0.1:7070\nfault": "it shows a store with faults",
}
# Those that run in the store's folder, while no server runs.
IN_STORE = ("printf '\\0\\1", "mkdir -p tmp", "lost=", "cd store")
# Those that serve.
SERVING = ("vault serve store 127.0.0.1:7070", )


def commands_of(block):
    """The commands of a block: what stands behind `$`, and goes on behind `>`; where nothing does, all of it."""
    lines = block.splitlines()
    if not any(line.startswith("$ ") for line in lines):
        return block
    return "\n".join(line[2:] for line in lines if line.startswith(("$ ", "> ")))


def shown_in(block):
    """The first words of what a block shows as printed."""
    return {line.split()[0] for line in block.splitlines() if line.strip() and not line.startswith(("$ ", "> ")) and re.match(r"[a-z]+ ", line)}


class Desk:
    """A folder in which the blocks of a page are run, one after another: with the program on the path, a store, and photos."""

    def __init__(self, yard):
        self.top = filled(yard.top / "desk", {"photos/2026/one": b"the sea" * 99, "photos/two": b"abc", "crates/vault/out/": b"", "bin/": b""})
        for name in ("docs", "examples", "scripts", "README.md", "CHANGES.md", "LICENSE"):
            (self.top / name).symlink_to(ROOT / name)
        for name in ("bin/vault", "crates/vault/out/vault"):
            (self.top / name).write_text(f"#!/bin/sh\nexec {shlex.quote(OPTIONS.program)} \"$@\"\n")
            (self.top / name).chmod(0o755)
        self.store, self.first = self.top / "store", ""

    def runs(self, script, address, folder=""):
        """Runs a script; what it prints."""
        for port in ("7070", "7071"):
            script = script.replace(f"127.0.0.1:{port}", address)
        script = re.sub(r"7d0c\.\.e1", self.first, script)
        environment = os.environ | {"HOME": str(self.top), "PATH": f"{self.top}/bin:{os.environ['PATH']}"}
        run = subprocess.run(["bash", "-euo", "pipefail", "-c", script], cwd=self.top / folder, env=environment, stdin=subprocess.DEVNULL,
                             capture_output=True, text=True, timeout=WAIT)
        same((run.returncode, run.stderr), (0, ""), script)
        return run.stdout

    def served(self, script):
        """Runs a script beside a server of the store, in which there is a snapshot."""
        with Server(self.store, connections=999) as server:
            self.first = stored(server.address, self.top / "photos", "laptop")
            for name in ("photos-again", "all"):
                shutil.rmtree(self.top / name, ignore_errors=True)
            return self.runs(script.replace("vault serve store 127.0.0.1:7071 --connections 2 &\n", ""), server.address)


def tries_block(desk, block):
    """Runs a block as it stands: what it shows as printed comes first in a line that is printed."""
    script, printed = commands_of(block), ""
    if script.startswith("30 2 * * * "):
        (desk.top / "documents").mkdir(exist_ok=True)
        printed = desk.served(script.removeprefix("30 2 * * * "))
    elif script.startswith(SERVING):
        words = shlex.split(script)[4:]
        with Server(desk.store, *words[2:], connections=words[1]) as server:
            told("snapshots", server.address)
        return
    elif script.startswith(IN_STORE):
        script = re.sub(r"^lost=.*$", f"lost={pack_in(desk.store)}", script, flags=re.M)
        printed = desk.runs(script, "", "" if script.startswith("cd ") else "store")
    elif script.startswith(("scripts/install.sh", "vault init", "cp -a", "cat late.txt")):
        printed = desk.runs(script, "")
    else:
        printed = desk.served(script)
    for word in shown_in(block) - {"file", "start", "finish", "until", "unlock", "late"}:
        holds(re.search(rf"^{word}\b", printed, re.M), f"{script} printed {printed!r}, and no {word}")


def pack_in(store):
    return next(it for it in (store / "data").rglob("*") if it.is_file()).name


@trial
def blocks_of_the_manual_are_run():
    """Each that this machine can run, in the order of the page; what they show is what they print."""
    with Yard() as yard:
        desk, ran = Desk(yard), 0
        same(blocks_of(ROOT / "README.md"), [block for block in blocks_of(ROOT / "README.md") if block.startswith(tuple(NOT_RUN))], "blocks of README.md")
        script = [block for block in blocks_of(ROOT / "docs/MANUAL.md") if "$ cat late.txt" in block][0]
        (desk.top / "late.txt").write_text(script.split("$ cat late.txt\n")[1].split("$ vault play")[0])
        for block in blocks_of(ROOT / "docs/MANUAL.md"):
            if not block.removeprefix("$ ").startswith(tuple(NOT_RUN)):
                tries_block(desk, block)
                ran += 1
        holds(ran > 18, f"{ran} blocks were run")


@trial
def reasons_for_blocks_that_are_not_run_are_of_blocks():
    """No reason is left of a block that is gone."""
    blocks = [block.removeprefix("$ ") for page in ("README.md", "docs/MANUAL.md") for block in blocks_of(ROOT / page)]
    same([begin for begin in NOT_RUN if not any(block.startswith(begin) for block in blocks)], [])
    holds(all(any(commands_of(block).startswith(begin) for block in blocks_of(ROOT / "docs/MANUAL.md")) for begin in (*IN_STORE, *SERVING)), "blocks of other sorts")


@trial
def the_store_that_the_page_of_formats_shows_is_made():
    """A backup of its folder into a store with its numbers has the objects that the page names."""
    page = (ROOT / "docs/FORMATS.md").read_text()
    with Yard(*SMALL, is_store=True) as yard:
        root = filled(yard.top / "from", {"d/": b"", "x": b"abc"})
        with Server(yard.root) as server:
            stored(server.address, root, "laptop")
        names = [it.name for folder in ("data", "index") for it in yard.at(folder).rglob("*") if it.is_file()]
        same([name in page for name in names], [True, True], names)


@trial(is_early=True)
def the_example_of_a_week_runs():
    """The first command of the page for newcomers."""
    needs("cc")
    compiler = shutil.which("cc")
    with Yard() as yard:
        yard.makes("")
        subprocess.run([compiler, "-shared", "-fPIC", "-o", yard.at("moment.so"), ROOT / "examples/moment.c"], check=True, timeout=WAIT)
        if not told("--version", env={"LD_PRELOAD": str(yard.at("moment.so"))}).startswith("0|"):
            raise Skipped("nothing can be loaded before this program")
        runs_example(yard, "a-week")


def runs_example(yard, name):
    """Runs an example with this program, at a port that is free; it ends well."""
    for _ in range(5):
        environment = os.environ | {"VAULT": OPTIONS.program, "PORT": str(free_port()), "TMPDIR": str(yard.top)}
        run = subprocess.run([ROOT / f"examples/{name}.sh"], env=environment, stdin=subprocess.DEVNULL, capture_output=True, text=True, timeout=900)
        if "not reached" not in run.stderr + run.stdout:
            break
    same(run.returncode, 0, f"examples/{name}.sh: {(run.stdout + run.stderr)[-600:]}")
    if skipped := re.search(r"^skipped: (.*)$", run.stdout, re.M):
        raise Skipped(skipped[1])


def example(name):
    """One more example is run with --long."""
    def run():
        with Yard() as yard:
            runs_example(yard, name)
    run.__name__, run.__module__ = f"the_example_{name.replace('-', '_')}_runs", __name__
    trial(run, is_long=True)


for it in sorted((ROOT / "examples").glob("*.sh")):
    if it.stem not in ("serving", "a-week", "first-frame"):
        example(it.stem)
