"""Plays the rounds of a plan, and judges the store after each."""
import os
import random
import re
import shutil
import subprocess
import threading
import time
from collections import Counter
from concurrent.futures import ThreadPoolExecutor
from pathlib import Path

from program import frame, read_frame, told
from trying import OPTIONS, ROOT, WAIT, holds

from rounds.histories import History
from rounds.judging import judges_outcomes, judges_store, rows_of
from rounds.outcomes import WELL, Outcome, Played
from rounds.plans import Job
from rounds.power_cuts import begins_recorded, goes_on_behind_cut
from rounds.proxies import Proxy, Tokens, Trouble
from rounds.stores import Store, stops
from rounds.trees import changes_meanwhile, contents, edited

# What is prepared before a round's jobs begin, and what goes on from its beginning to its end. All else comes at a moment of its own.
PREPARED, THROUGHOUT = ("cut", "stall", "clock", "failing call"), ("busy folder",)
# How what happened is counted.
COUNTED = {"kill client": "clients killed", "kill server": "servers killed", "stop client": "clients stopped", "stop server": "servers stopped",
           "cut": "connections cut", "stall": "connections stalled", "full disk": "full disks", "failing call": "servers whose calls failed",
           "clock": "clocks that jumped", "remove locks": "removals of locks", "busy folder": "busy folders", "take tokens": "takings of tokens"}
# The calls of the server of a store of more bytes aren't recorded, since their log has each byte several times.
MOST_RECORDED = 32 << 20


class Machine:
    """A machine with a folder, and its own way to the server."""

    def __init__(self, top, number, campaign):
        self.number, self.host, self.folder = number, f"host{number}", top / f"folder{number}"
        self.proxy = Proxy(campaign.store.connects, campaign.tokens)
        self.process, self.wanted, self.environment = None, {}, {}
        self.folder.mkdir()

    def runs(self, *words):
        """What a command of this machine comes to. If it is killed its status is below 0."""
        command = [OPTIONS.program, *map(str, words)]
        self.process = subprocess.Popen(command, stdin=subprocess.DEVNULL, stdout=subprocess.PIPE, stderr=subprocess.PIPE, env=os.environ | self.environment)
        try:
            output, faults = self.process.communicate(timeout=WAIT)
        except subprocess.TimeoutExpired:
            self.process.kill()
            self.process.communicate()
            raise AssertionError(f"{' '.join(command)} hangs") from None
        return f"{self.process.returncode}|{output.decode(errors='replace')}|{faults.decode(errors='replace')}"

    def is_running(self):
        return self.process is not None and self.process.poll() is None

    def ends(self):
        self.proxy.closes()
        if self.is_running():
            self.process.kill()


class Campaign:
    """A plan that is played: its store, its machines, and what the store has to hold."""

    def __init__(self, top, plan):
        self.top, self.plan, self.counts, self.counting = Path(top), plan, Counter(), threading.Lock()
        self.store, self.tokens, self.history = Store(self.top, plan), Tokens(), History()
        self.machines = [Machine(self.top, number, self) for number in range(plan.machines)]
        # The way of the commands by which the store is judged.
        self.own = Proxy(self.store.connects, self.tokens)
        self.clock, self.config = clock_library(self.top), self.store.config()
        # The tokens that were given before the round that a power cut ends.
        self.given_before = set()
        # Behind the last round: the tokens that nobody had used, and the last of them, which is for the judgement behind the next round.
        self.fresh, self.held = set(), None

    def opens(self):
        """Serves the store, and stores the snapshots that it begins with; what is wrong then."""
        try:
            self.store.serves()
            return [f"before the first round: {fault}" for fault in self.stores_many()]
        except Exception as error:  # noqa: BLE001
            return [f"before the first round: {type(error).__name__}: {error}"]

    def stores_many(self):
        """Stores the snapshots that the store begins with: the machines do so side by side. Yields what is wrong with the list of them."""
        shares = [range(machine.number, self.plan.begun, len(self.machines)) for machine in self.machines]
        with ThreadPoolExecutor(len(self.machines)) as pool:
            for machine, stored in zip(self.machines, pool.map(self.stores_share, self.machines, shares)):
                for name, wanted in stored:
                    self.history.stores(name, machine.host, wanted)
        yield from self.history.faults(rows_of(self.asks("snapshots")))

    def stores_share(self, machine, numbers):
        """Backs up a machine once for each number, with other bytes of one file; the names of the snapshots, and what they have."""
        stored = []
        for number in numbers:
            (machine.folder / "begun").write_text(f"number {number} of {self.plan.seed}")
            machine.wanted = contents(machine.folder)
            got = machine.runs("backup", machine.proxy.address, machine.host, machine.folder)
            holds(re.fullmatch(WELL["backup"], got), f"a backup before the first round came to {got!r}")
            stored.append((got.split(" ")[1], machine.wanted))
        return stored

    def lacks(self):
        """What can't be tried on this machine, in words."""
        if not self.store.has_disk:
            yield "no full disks (they need root)"
        if not self.store.is_traceable:
            yield "no failing calls and no power cuts (they need strace)"
        if not self.clock:
            yield "no clocks that jump (they need a C compiler)"

    def ends(self):
        for machine in self.machines:
            machine.ends()
        self.own.closes()
        self.store.ends()

    def asks(self, *words):
        """A command of nobody's machine, which nothing disturbs."""
        return told(words[0], self.own.address, *words[1:])

    def adds(self, what, more=1):
        """So much more was done."""
        with self.counting:
            self.counts[what] += more

    def restored_folder(self, place):
        return self.top / f"restored-{place}"

    def plays(self, it):
        """Plays a round; what is wrong then."""
        chance = random.Random(f"played {self.plan.seed} {it.number}")
        played = self.begins(it)
        faults = self.runs_jobs(played)
        self.adds("rounds")
        if self.is_failing(it):
            self.ends_failing(played)
        faults += judges_outcomes(self, played)
        if played.is_recorded:
            faults += goes_on_behind_cut(self, played, chance)
        if not faults:
            faults += [*judges_store(self, played, chance), *self.own.faults]
        return [f"round {it.number}: {fault}" for fault in faults]

    # ---- before a round

    def begins(self, it):
        """Has folders change, and the store served as the round wants it."""
        if self.store.is_half_full():
            self.adds("rounds without edits, as the disk was half full")
        else:
            for number in it.edits:
                self.edits(self.machines[number], it)
        self.history.begins_round()
        is_recorded = it.is_cut and self.store.is_traceable and self.store.size() <= MOST_RECORDED
        if it.is_cut and not is_recorded:
            self.adds("power cuts left out")
        played = Played(it, len(self.machines), self.store.config()["version"], is_recorded, before=dict(self.history.snapshots))
        played.objects = self.store.objects() if it.append_only else set()
        self.serves_for(played)
        return played

    def edits(self, machine, it):
        chance = random.Random(f"edits {self.plan.seed} {it.number} {machine.number}")
        edited(chance, machine.folder, self.plan.greatest, machine.number % 2 == 1)
        machine.wanted = contents(machine.folder)

    def is_failing(self, it):
        """Whether a round has a call that fails."""
        return self.store.is_traceable and not it.is_cut and any(each.word == "failing call" for each in it.disturbances)

    def serves_for(self, played):
        """Has the store served as the round wants it."""
        is_other = self.store.append_only != played.it.append_only
        self.store.append_only = played.it.append_only
        if played.is_recorded:
            begins_recorded(self)
        elif self.is_failing(played.it):
            self.store.serves_failing(next(each.number for each in played.it.disturbances if each.word == "failing call"))
        elif is_other:
            self.store.serves()

    def ends_failing(self, played):
        """Has the store served by a server whose calls don't fail, and notes whether one failed before."""
        self.store.kills()
        if self.store.has_failed():
            self.happened(played, next(each for each in played.it.disturbances if each.word == "failing call"))
        self.store.serves()

    # ---- the jobs of a round

    def runs_jobs(self, played):
        """Runs all jobs, those of each machine one after another, with what disturbs them; what went wrong in the running itself."""
        failed, ends = [], threading.Event()

        def runs(target, *words):
            try:
                target(*words)
            except Exception as error:  # noqa: BLE001
                failed.append(f"{type(error).__name__}: {error}")

        for each in played.it.disturbances:
            if each.word in PREPARED:
                runs(self.disturbs, played, each, ends)
        disturbing = [threading.Thread(target=runs, args=(self.disturbs, played, each, ends), daemon=True)
                      for each in played.it.disturbances if each.word not in PREPARED]
        working = [threading.Thread(target=runs, args=(self.works, played, machine), daemon=True) for machine in self.machines]
        for each in disturbing + working:
            each.start()
        for each in working:
            each.join()
        ends.set()
        for each in disturbing:
            each.join()
        for machine in self.machines:
            # A request that stood still arrives in its own round.
            machine.proxy.settles()
            machine.proxy.calms()
            machine.environment = {}
            failed += machine.proxy.faults
        return failed

    def works(self, played, machine):
        for place, job in enumerate(played.it.jobs):
            if job.machine == machine.number:
                time.sleep(job.delay)
                outcome = Outcome(job, machine.host, place)
                words = self.words_of(machine, outcome, sorted(played.before))
                outcome.begun = time.monotonic()
                outcome.got = machine.runs(*words)
                outcome.ended = time.monotonic()
                played.outcomes.append(outcome)
                self.adds("jobs")
                self.adds("policies done" if job.word == "policy" else f"{job.word}s done", outcome.is_well())

    def words_of(self, machine, outcome, names):
        """The words of a job's command. What it is to restore or forget is one of these names."""
        job, to = outcome.job, machine.proxy.address
        if job.word in ("restore", "forget") and not names:
            job.word = "list"
        match job.word:
            case "backup":
                return "backup", to, machine.host, machine.folder, "--retry", 3
            case "restore":
                outcome.names = {names[job.number % len(names)]}
                return "restore", to, *outcome.names, self.restored_folder(outcome.place), "--retry", 3
            case "forget":
                outcome.names = {names[job.number % len(names)], names[job.number // 7 % len(names)]}
                return "forget", to, *sorted(outcome.names)
            case "policy":
                return "forget", to, "--keep-last", 1 + job.number % 3, "--keep-daily", job.number // 3 % 2
            case "list":
                return "snapshots", to
            case "prune" | "check":
                return job.word, to, "--retry", 2
            case word:
                return word, to

    # ---- what disturbs them

    def happened(self, played, disturbance):
        """Something happened, which may explain what a job comes to."""
        played.happened.append(disturbance)
        self.adds(COUNTED[disturbance.word])

    def disturbs(self, played, disturbance, ends):
        """Does what disturbs a round, if this machine and this moment allow it."""
        machine = self.machines[disturbance.number % len(self.machines)]
        if disturbance.word not in PREPARED + THROUGHOUT:
            ends.wait(disturbance.at)
        if disturbance.word in ("kill client", "stop client"):
            # Most clients are done in a moment: the next one that runs is meant.
            while not machine.is_running() and not ends.wait(0.001):
                pass
            time.sleep(disturbance.at * disturbance.at / 8)
        if self.does(played, disturbance, machine, ends):
            self.happened(played, disturbance)

    def does(self, played, disturbance, machine, ends):
        """Disturbs a machine or the store; whether that happened by now."""
        words = [job.word for job in played.it.jobs if job.machine == machine.number]
        match disturbance.word:
            case "cut" | "stall":
                # It happens once a connection brings so many bytes.
                at = int(4 ** (disturbance.number % 1000 / 100))
                machine.proxy.troubled(Trouble(disturbance.word, at, disturbance.seconds, lambda: self.happened(played, disturbance)))
                return False
            case "clock" if self.clock:
                moment = int(time.time()) + (disturbance.number - 32_768) * 100
                machine.environment = {"LD_PRELOAD": str(self.clock), "AT": str(moment)}
                return bool(words)
            case "busy folder" if "backup" in words:
                changes_meanwhile(random.Random(disturbance.number), machine.folder, ends)
            case "kill client" if machine.is_running():
                machine.process.kill()
            case "kill server":
                self.store.serves()
            case "stop client" if machine.is_running():
                stops(machine.process, disturbance.seconds)
            case "stop server":
                return self.store.stops(disturbance.seconds)
            case "full disk" if self.store.has_disk:
                self.store.fills(disturbance.seconds)
            case "remove locks":
                return self.removes_locks(played, disturbance, machine)
            case "take tokens":
                return self.takes_tokens(machine, disturbance.number % 5)
            case _:
                return False
        return True

    def removes_locks(self, played, disturbance, machine):
        """Removes all locks; whether there may have been one. It is judged like a job."""
        outcome = Outcome(Job(machine.number, "unlock", 0), machine.host, "unlock", begun=time.monotonic())
        outcome.got = told("unlock", machine.proxy.address, "--remove-all")
        outcome.ended = time.monotonic()
        played.outcomes.append(outcome)
        return not outcome.is_well() or "removed" in outcome.got

    def takes_tokens(self, machine, count):
        """A client takes some tokens, and does nothing with them; whether it got one."""
        taken = 0
        try:
            with machine.proxy.connected() as client:
                for number in range(count + 1):
                    client.sendall(frame(1, sequence=number + 1))
                    if not read_frame(client):
                        break
                    taken += 1
        except OSError:
            # Another disturbance ended the connection.
            pass
        return taken > 0


def clock_library(top):
    """The library that sets a client's clock, if it can be built here."""
    made = top / "moment.so"
    if shutil.which("cc") is None:
        return None
    run = subprocess.run(["cc", "-shared", "-fPIC", "-o", made, ROOT / "examples/moment.c"], capture_output=True)
    return made if run.returncode == 0 else None
