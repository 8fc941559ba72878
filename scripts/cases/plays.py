"""What `vault play` and `vault loop` print: a script's lines, as they are read, and the store and the clients that they move."""

import re
from dataclasses import dataclass

from checks import Check
from commands import written
from jobs import Backup, Client, Fed, FedClient, Forget, List, Restore, StartRefused
from prunes import Prune, Upgrade
from store import Store
from texts import config_text

# The greatest frame that `vault loop` carries.
CARRIED = 65_536
FAILURES = ("applied", "unapplied", "read")
SORTS = ("ticket", "lock", "config", "list", "get", "range", "put-pack", "put-index", "put-snapshot", "delete-pack", "delete-index",
         "delete-snapshot", "unlock", "upgrade")


class NotUnderstood(Exception):
    """A line that is none, or that makes no sense where it stands."""


class Ended(Exception):
    """Why a script isn't played to its end."""


def number(word, bits=64):
    if not re.fullmatch("[0-9]+", word) or int(word) >= 2**bits:
        raise NotUnderstood
    return int(word)


def count(word):
    return number(word, 32)


def one_of(words):
    """What reads one of these words."""
    def read(word):
        if word not in words:
            raise NotUnderstood
        return word
    return read


def host(word):
    if not 1 <= len(word.encode()) <= 255:
        raise NotUnderstood
    return word


def path(word):
    return word.split("/")


def data(word):
    if word == "-":
        return b""
    if len(word) % 2 or not re.fullmatch("[0-9a-fA-F]+", word):
        raise NotUnderstood
    return bytes.fromhex(word)


# What stands behind the first word of a line, and behind what a client starts for.
BEHIND = {"dir": [path], "file": [path, data], "step": [number], "finish": [number], "until": [number, one_of(SORTS)], "late": [number],
          "fault": [number, one_of(FAILURES)], "deliver": [number], "unlock": [number], "crash": [number], "restart": [], "report": [],
          "replay": [], "append-only": []}
STARTS = {"backup": [host, number], "pieces": [host, number], "restore": [number], "list": [], "prune": [], "check": [], "keep": [count, count], "upgrade": []}
# What a client is fed.
ITEMS = {"dir": [str], "file": [str], "bytes": [data], "close": [], "end": [], "abandon": []}
# What somebody asks who is no client.
QUESTIONS = {"ticket": [], "lock": [number, one_of(("shared", "exclusive"))], "refresh": [number, number], "locks": []}
MAY_BE_CARRIED = ("dir", "file", "start", "finish", "report")


def words_by(table, words):
    """The first word, and the values of those behind it."""
    readers = table.get(words[0])
    if readers is None or len(words) != 1 + len(readers):
        raise NotUnderstood
    return words[0], [read(word) for read, word in zip(readers, words[1:])]


def start_of(words, old):
    """The line of a client that starts for what these words say."""
    if words[:1] == ["forget"] and len(words) > 1:
        return "start", [old, "forget", [number(word) for word in words[1:]]]
    word, values = words_by(STARTS, words or [""])
    return "start", [old, word, *values]


def line_of(line):
    """The word of a line, and its values."""
    try:
        words = line.decode().split(" ")
    except UnicodeDecodeError:
        raise NotUnderstood
    if "" in words:
        raise NotUnderstood
    if words[0] == "start":
        return start_of(words[1:], False)
    if words[:2] == ["old", "start"]:
        return start_of(words[2:], True)
    if words[0] == "feed":
        client = number((words + [""])[1])
        return "feed", [client, *words_by(ITEMS, words[2:] or [""])]
    if words[0] == "ask":
        return "ask", [words_by(QUESTIONS, words[1:] or [""])]
    return words_by(BEHIND, words)


def told(say):
    """What the store said, in words."""
    return f"refused {say[1]}" if say[0] == "refused" else "done" if say == ("done",) else "other"


def sort_of(ask):
    """The word for a request that a script may wait for."""
    return f"{ask[0]}-{ask[2]}" if ask[0] in ("put", "delete") else ask[0]


@dataclass
class Seat:
    """A client, whether it crashed, and the place of its last request among the messages."""
    client: Client
    last: int = 0
    crashed: bool = False

    def pending(self):
        return None if self.crashed else self.client.pending


class Player:
    """A store and its clients, and all messages: each with its client, and whether it is a reply. Entries are for the next backup."""

    def __init__(self, is_carried=False, store=None):
        self.store, self.is_carried = store or Store(), is_carried
        self.store.config = config_text()
        self.entries, self.seats, self.messages = [], [], []

    def run(self, place, line):
        """What the line of this number prints."""
        if not line:
            return ""
        word, values = line_of(line)
        if self.is_carried and word not in MAY_BE_CARRIED:
            raise NotUnderstood
        if word == "append-only" and place != 1:
            raise NotUnderstood
        return getattr(self, "on_" + word.replace("-", "_"))(*values) or ""

    def seat(self, client):
        if client >= len(self.seats):
            raise NotUnderstood
        return self.seats[client]

    # Messages.

    def sends(self, client):
        """A client's pending request joins the messages."""
        self.seats[client].last = len(self.messages)
        self.messages.append((client, self.seats[client].client.pending, False))

    def on_deliver(self, at):
        if at >= len(self.messages):
            return
        client, message, is_reply = self.messages[at]
        if not is_reply:
            self.messages.append((client, message.reply(self.store.answer(message.what)), True))
            return
        seat = self.seats[client]
        if seat.pending() and message.sequence == seat.client.sequence:
            seat.client.take(message)
            if seat.client.pending:
                self.sends(client)

    def carries(self, message):
        if self.is_carried and len(message.frame()) > CARRIED:
            raise Ended("frame too large for loop")

    # Clients.

    def named(self, client):
        """The snapshot that a client stored."""
        seat = self.seats[client] if client < len(self.seats) else None
        if seat is None or seat.client.outcome is None or not seat.client.outcome.text.startswith("stored "):
            raise NotUnderstood
        return seat.client.outcome.name

    def job(self, word, values):
        """The job of a client that starts. A backup uses the entries up."""
        if word == "backup":
            entries, self.entries = self.entries, []
            return Backup(entries)
        if word == "restore":
            return Restore(self.named(values[0]))
        if word == "forget":
            return Forget([self.named(client) for client in values[0]])
        if word == "keep":
            return Forget(policy=tuple(values))
        return {"pieces": Fed, "list": List, "prune": Prune, "check": Check, "upgrade": Upgrade}[word]()

    def on_start(self, old, word, *values):
        who = values if word in ("backup", "pieces") else ("play", 0)
        sort = FedClient if word == "pieces" else Client
        try:
            client = sort(self.job(word, values), len(self.seats).to_bytes(16, "big"), *who, old)
        except StartRefused as refused:
            return f"start refused {refused.args[0]}\n"
        self.seats.append(Seat(client))
        self.sends(len(self.seats) - 1)

    def on_feed(self, client, word, values):
        seat = self.seat(client)
        if seat.crashed or not isinstance(seat.client, FedClient):
            return None
        code, taken = seat.client.feed(word, *values)
        if code is not None:
            return f"feed {client} refused {code}\n"
        if seat.client.pending:
            self.sends(client)
        return f"feed {client} took {taken}\n" if word == "bytes" and taken < len(values[0]) else None

    def on_step(self, client, armed=None):
        seat = self.seat(client)
        if not seat.pending():
            return
        self.carries(seat.client.pending)
        reply = len(self.messages)
        self.store.armed = armed
        self.on_deliver(seat.last)
        self.store.armed = None
        self.carries(self.messages[reply][1])
        self.on_deliver(reply)

    def on_fault(self, client, failure):
        self.on_step(client, failure)

    def on_finish(self, client, sort=None):
        seat = self.seat(client)
        while seat.pending() and sort_of(seat.client.pending.what) != sort:
            self.on_step(client)

    def on_until(self, client, sort):
        self.on_finish(client, sort)

    def on_late(self, client):
        reply = len(self.messages)
        self.on_deliver(self.seat(client).last)
        return f"late {client} {told(self.messages[reply][1].what)}\n"

    def on_crash(self, client):
        self.seat(client).crashed = True

    # The store, and all.

    def on_dir(self, path):
        self.entries.append((path, None))

    def on_file(self, path, data):
        self.entries.append((path, data))

    def on_unlock(self, token):
        self.store.on_unlock(token)

    def on_ask(self, question):
        word, values = question
        if word == "lock":
            values = [values[0], values[1] == "exclusive", 0, "play"]
        say = self.store.answer((word, *values))
        if say == ("refused", 11):
            raise Ended("out of memory")
        return f"ask {told(say)}\n"

    def on_restart(self):
        self.store.restart()

    def on_append_only(self):
        self.store.append_only = True

    def on_replay(self):
        for at in range(len(self.messages)):
            if not self.messages[at][2]:
                self.on_deliver(at)

    def on_report(self):
        lines = []
        for place, seat in enumerate(self.seats):
            outcome = seat.client.outcome
            result = outcome.text if outcome else "crashed" if seat.crashed else "running"
            lines.append(f"client {place} {seat.client.job.role} {result}\n")
        packs, indexes, snapshots = (len(self.store.objects[kind]) for kind in ("pack", "index", "snapshot"))
        for what in ("pack", "index", "snapshot", "ledger"):
            self.store.needs(what)
        return "".join(lines) + f"store packs {packs} indexes {indexes} snapshots {snapshots} live {len(self.store.ledger.live)}\n"


def lines_of(script, is_broken):
    """The lines that are run; what stands behind the last line feed is one, unless it is empty."""
    *lines, rest = script.split(b"\n")
    return lines + [rest] if rest and not is_broken else lines


def prints_of(command, script, is_broken=False, room=None, store=None):
    """What a script prints, and the text of the fault that ends it: `command` is play or loop."""
    player, output = Player(command == "loop", store), b""
    try:
        for place, line in enumerate(lines_of(script, is_broken), 1):
            output, is_whole = written(output, room, player.run(place, line).encode())
            if not is_whole:
                raise Ended("write failed")
        if is_broken:
            raise Ended("read failed")
    except NotUnderstood:
        return output.decode(), f"line {place}: not understood"
    except Ended as ended:
        return output.decode(), ended.args[0]
    return output.decode(), ""
