"""Scripts by chance for `vault play`, of all lines, beside what the reference prints; some of them with a request for memory refused."""
import os
import random
import shutil
import subprocess
import sys
import time

from trying import OPTIONS, ROOT, WAIT

sys.path.insert(0, str(ROOT / "scripts/cases"))

import refused  # noqa: E402
from plays import SORTS, Ended, NotUnderstood, Player  # noqa: E402

JOBS = ["backup"] * 6 + ["pieces"] * 5 + ["restore"] * 5 + ["forget"] * 3 + ["prune"] * 4 + ["check"] * 2 + ["list", "keep", "upgrade"]
BROKEN_LINES = ["step", "step 99999", "start restore 77", "start", "feed 0", "fault 0 later", "until 0 put", "ask", "file a 6", "dir", "unlock x", "  ", "old report", "deliver -1"]
# So many requests for memory are refused of a script, each below this number.
REFUSALS, MOST_REQUESTS = 6, 1 << 14
PATHS = ["a", "b", "c", "d", "d/e", "d/e/f", "g", "x", "d/y", "..", "d//e", "é", "n" * 255, "n" * 256]


class Script:
    """A script that is written line by line. The reference plays each line at once, so the next one goes by what it came to."""

    def __init__(self, seed):
        self.chance, self.player, self.lines, self.prints, self.fault = random.Random(f"script {seed}"), Player(), [], "", None
        if self.chance.random() < 0.1:
            self.adds("append-only")
        for _ in range(self.chance.choice((20, 60, 150))):
            if self.fault is None:
                self.adds_next()
        if self.fault is None:
            self.ends()

    def adds(self, line):
        self.lines.append(line)
        try:
            self.prints += self.player.run(len(self.lines), line.encode())
        except NotUnderstood:
            self.fault = f"line {len(self.lines)}: not understood\n"
        except Ended as ended:
            self.fault = ended.args[0] + "\n"

    def text(self):
        return "".join(line + "\n" for line in self.lines)

    def adds_next(self):
        seats = self.player.seats
        if not seats or self.chance.random() < 0.2:
            return self.starts()
        if self.chance.random() < 0.002:
            return self.adds(self.chance.choice(BROKEN_LINES))
        running = [at for at, seat in enumerate(seats) if seat.pending()]
        fed = [at for at, seat in enumerate(seats) if hasattr(seat.client, "feed") and not seat.crashed and seat.client.outcome is None]
        if fed and self.chance.random() < 0.5:
            return self.feeds(self.chance.choice(fed))
        if running and self.chance.random() < 0.7:
            return self.moves(self.chance.choice(running))
        return self.happens()

    def starts(self):
        stored = [at for at, seat in enumerate(self.player.seats) if seat.client.outcome and seat.client.outcome.text.startswith("stored ")]
        job, old = self.chance.choice(JOBS), self.chance.choice(("", "", "", "old "))
        match job:
            case "backup":
                self.adds_entries()
                self.adds(f"{old}start backup {self.chance.choice('ab')} {self.chance.randrange(400_000)}")
            case "pieces":
                self.adds(f"{old}start pieces {self.chance.choice('ab')} {self.chance.randrange(400_000)}")
                if self.chance.random() < 0.8:
                    self.adds(f"finish {len(self.player.seats) - 1}")
            case "restore" if stored:
                self.adds(f"{old}start restore {self.chance.choice(stored)}")
            case "forget" if stored:
                # One may be named twice.
                named = self.chance.choices(stored, k=self.chance.choice((1, 1, 2, 3)))
                self.adds(f"{old}start forget {' '.join(map(str, named))}")
            case "keep":
                self.adds(f"{old}start keep {self.chance.randrange(4)} {self.chance.randrange(3)}")
            case "prune" | "check" | "list" | "upgrade":
                self.adds(f"{old}start {job}")

    def data(self):
        length = self.chance.choice((0, 3, 3, 70, 200, 900))
        made = self.chance.randbytes(length) if self.chance.random() < 0.6 else bytes(number * 7 % 251 for number in range(length))
        return made.hex() or "-"

    def adds_entries(self):
        """Entries for a backup, mostly in their order."""
        paths = self.chance.sample(PATHS[:9] if self.chance.random() < 0.9 else PATHS, self.chance.randrange(6))
        whole = sorted({tuple(path.split("/")[:depth + 1]) for path in paths for depth in range(path.count("/") + 1)})
        folders = {path[:-1] for path in whole if len(path) > 1}
        for path in whole:
            is_folder = path in folders or self.chance.random() < 0.2
            self.adds(f"dir {'/'.join(path)}" if is_folder else f"file {'/'.join(path)} {self.data()}")

    def feeds(self, client):
        item = self.chance.choice((*["file"] * 4, *["bytes"] * 6, *["close"] * 5, *["dir"] * 2, "end", "end", "abandon" if self.chance.random() < 0.2 else "close"))
        name = f"n{len(self.lines):04}" if self.chance.random() < 0.9 else self.chance.choice(("a", "..", "b"))
        self.adds(f"feed {client} {item}" + (f" {name}" if item in ("file", "dir") else f" {self.data()}" if item == "bytes" else ""))
        if self.fault is None and self.chance.random() < 0.6:
            self.adds(f"finish {client}")

    def moves(self, client):
        self.adds(self.chance.choice((f"step {client}", f"step {client}", f"step {client}", f"finish {client}", f"finish {client}", f"until {client} {self.chance.choice(SORTS)}",
                                      f"fault {client} {self.chance.choice(('applied', 'unapplied', 'read'))}", f"late {client}")))

    def happens(self):
        clients, token = len(self.player.seats), self.chance.randrange(1, 2 * len(self.player.seats) + 4)
        line = self.chance.choice((
            f"late {self.chance.randrange(clients)}", f"deliver {self.chance.randrange(len(self.player.messages) + 2)}", f"unlock {token}", f"unlock {token}", "restart", "report",
            f"ask lock {token} {self.chance.choice(('shared', 'exclusive'))}", f"ask refresh {token} {self.chance.randrange(100)}", "ask ticket", "ask locks",
            f"crash {self.chance.randrange(clients)}" if self.chance.random() < 0.3 else "report", "replay" if self.chance.random() < 0.15 else "restart"))
        self.adds(line)

    def ends(self):
        """All clients run on, all locks go, and a check comes behind them."""
        clients = len(self.player.seats)
        for line in (*[f"finish {client}" for client in range(clients)], *[f"unlock {token}" for token in range(1, 2 * clients + 6)], "start check", f"finish {clients}", "report"):
            if self.fault is None:
                self.adds(line)


def played(text, environment=None):
    """What the program prints of a script: status, output and faults."""
    run = subprocess.run([OPTIONS.program, "play"], input=text.encode(), capture_output=True, timeout=WAIT, env=os.environ | (environment or {}))
    return run.returncode, run.stdout.decode(errors="replace"), run.stderr.decode(errors="replace")


def fault_of(seed):
    """What is wrong with the script of a seed."""
    script = Script(seed)
    got, wanted = played(script.text()), (1 if script.fault else 0, script.prints, script.fault or "")
    return None if got == wanted else f"script {seed}: {got!r}, and not {wanted!r}, of\n{script.text()}"


def refused_at(text, library, mark, chance, most):
    """Plays a script with a request for memory refused, one below this number; which one that was, and what the script came to. If the script
    makes fewer requests an earlier one is tried."""
    at = chance.randrange(1, most)
    came = played(text, refused.refusing(library, mark, at))
    while not mark.is_symlink() and at > 1:
        at = chance.randrange(1, at)
        came = played(text, refused.refusing(library, mark, at))
    return at, came


def is_told(faults):
    """Whether faults end with one that reports want of memory."""
    return faults.endswith(tuple(cause + "\n" for cause in refused.CAUSES))


def fault_without_memory(seed, library, mark, chance, counts):
    """What is wrong if some of the requests for memory of a script are refused, each in a run of its own."""
    script, most = Script(seed), MOST_REQUESTS
    text, wanted = script.text(), (1 if script.fault else 0, script.prints, script.fault or "")
    lacking = {(prints, fault + "\n" * bool(fault)) for prints, fault in refused.lacking("play", text.encode())}
    for _ in range(REFUSALS):
        at, (status, output, faults) = refused_at(text, library, mark, chance, most)
        if not mark.is_symlink():
            return f"script {seed}: its first request for memory can't be refused, of\n{text}"
        counts["requests for memory refused"] += 1
        is_cut = status == 1 and script.prints.startswith(output) and is_told(faults)
        is_as_ever = (status, output) == wanted[:2] and (is_told(faults) or wanted[2].startswith(faults))
        if not is_cut and not is_as_ever and (output, faults) not in lacking:
            return f"script {seed}, request {at} refused: {(status, output, faults)!r}, of\n{text}"
    return None


def plays_scripts(seed, until, most, folder, counts):
    """Plays scripts until time is up, or one goes wrong; that one's fault. It counts what it did."""
    chance, number = random.Random(seed), 0
    library = refused.compiled(folder) if shutil.which("gcc") else None
    if library is None:
        print("here no request for memory is refused (that needs gcc)", flush=True)
    while number != most and time.monotonic() < until:
        each = f"{seed}.{number}"
        counts["scripts"] += 1
        fault = fault_of(each)
        if fault is None and library and number % 5 == 0:
            counts["scripts without memory"] += 1
            fault = fault_without_memory(each, library, folder / "refused", chance, counts)
        if fault:
            return fault
        number += 1
    return None
