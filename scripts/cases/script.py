"""A whole script: beside runs of the program one store and its clients.

The reference moves the store and its clients together, request by request, as a case says. What then has to be shown is told apart. Of
the store there are lines for crates/cases: all that was asked of it, in that order, with what happened to it between. Of each client there
is a run of the program over the replies that it got.
"""

import copy

import commands
from checks import Check
from frames import KINDS, Message
from jobs import Client, Fed, FedClient, Forget, List, Pieces, Restore, items_of
from lines import Lines, digits, policy
from naming import name_of
from prunes import Prune, Upgrade
from runs import FOLDER, TARGET, frames_of, shown
from store import Refused, Store
from texts import config_text

HOST, TIME = "vault", 5
# A store to which more than this many digits are sent in a case is shown by what its clients make of it alone.
MOST = 300_000


class Script(Lines):
    """Lines and runs, and the store and the clients that they speak of."""

    def __init__(self):
        super().__init__()
        self.seats, self.store, self.begun, self.known = [], Store(), None, set()

    def shelf(self):
        """A shelf on which no store was made."""
        self.ends()
        self.begun = len(self.given), len(self.wanted), self.is_told
        self.line("shelf")
        self.store = Store()

    def ends(self):
        """Ends what was told of a store, and tells of its clients."""
        for seat in self.seats:
            seat.tells(self)
        self.seats = []
        if self.begun and sum(map(len, self.given[self.begun[0]:])) > MOST:
            given, wanted, self.is_told = self.begun
            del self.given[given:], self.wanted[wanted:]
        self.begun = None

    def init(self, minimum=64, maximum=128, bits=6, target=1_024):
        self.line("init", minimum, maximum, bits, target)
        try:
            self.store.read()
            if self.store.config is not None:
                return self.prints("exists")
            self.store.write(lambda: setattr(self.store, "config", config_text(minimum, maximum, bits, target)))
            self.prints("created")
        except Refused:
            self.prints("shelf failed")

    def fresh(self, *numbers):
        """A new store."""
        self.shelf()
        self.init(*numbers)

    def config(self, data):
        self.line("config", digits(data))
        self.store.config = data

    def lay(self, kind, name, data):
        self.line("lay", kind, name.hex(), digits(data))
        self.store.objects[kind].setdefault(name, data)

    def lift(self, kind, name):
        self.line("lift", kind, name.hex())
        self.store.objects[kind].pop(name, None)

    def arm(self, word):
        self.line("arm", word)
        self.store.armed = word

    def disarm(self):
        self.line("disarm")
        self.store.armed = None

    def append_only(self):
        """The store only appends from now on."""
        self.line("append-only")
        self.store.append_only = True

    def restart(self):
        """The store is closed and opened."""
        self.line("restart")
        self.store.restart()

    def unlock_token(self, token):
        self.line("unlock", token)
        self.store.needs("ledger")
        self.store.ledger.unlock(token)

    def serve(self, data, slow=False, broken=False, room=None):
        """A connection over which these bytes come."""
        for word, on in (("slow", slow), ("broken", broken)):
            if on:
                self.line(word)
        if room is not None:
            self.line("shut sent", room)
        self.line("ask", digits(data))
        replies, ended = commands.served(self.store, data, broken, room)
        for frame in frames_of(replies):
            self.prints("said", shown(frame))
        self.prints("served", ended)
        return replies

    def ask(self, *asks, sequence=1):
        """Requests in one connection, by the client of sixteen bytes 01."""
        frames = [Message(commands.INSTANCE, sequence + place, what).frame() for place, what in enumerate(asks)]
        self.serve(b"".join(frames))

    # Clients.

    def seat(self, client, words, command, *values, **given):
        self.seats.append(Seat(self.title, client, words, command, values, given))
        return len(self.seats) - 1

    def seat_job(self, job, words, command, *values):
        return self.seat(Client(job, commands.INSTANCE, HOST, TIME), words, command, *values)

    def start_backup(self, entries, host="a", time=5):
        entries = self.used() + entries
        client = FolderClient(entries, host, time)
        return self.seat(client, ["backup", host, FOLDER], commands.backup, host, entries, (), entries=entries)

    def pieces(self, items, host="a", time=5, early=(), late=()):
        """A backup that is fed items, some early ones before it wants any, some late ones after it ended: the name of its snapshot."""
        job = Pieces(items)
        client = Client(job, bytes([255] * 16), host, time)
        client.finish(self.store)
        self.line("pieces", host, time, *early, *job.words, *late)
        for said in [("refused", 6)] * len(early) + job.said + [("refused", 6)] * len(late):
            self.prints(*said)
        self.prints("backup", client.outcome.text)
        return client.outcome.name

    def start_list(self):
        return self.seat_job(List(), ["snapshots"], commands.snapshots)

    def named(self, snapshot):
        """The name of a snapshot, or of the one that a client stored."""
        return snapshot if isinstance(snapshot, bytes) else self.seats[snapshot].client.outcome.name

    def start_restore(self, snapshot):
        """Of a name, or of what a client stored."""
        name = self.named(snapshot)
        return self.seat_job(Restore(name), ["restore", name.hex(), TARGET], commands.restore, name)

    def start_forget(self, *snapshots):
        """Of names, or of what clients stored."""
        names = [self.named(one) for one in snapshots]
        return self.seat_job(Forget(names), ["forget", *[name.hex() for name in names]], commands.forget, names)

    def start_keep(self, last, daily):
        job = Forget(policy=(last, daily))
        return self.seat_job(job, ["forget", *policy(last, daily)], commands.forget, (), (last, daily))

    def start_prune(self):
        return self.seat_job(Prune(), ["prune"], commands.prune)

    def start_upgrade(self):
        return self.seat_job(Upgrade(), ["upgrade"], commands.upgrade)

    def start_check(self):
        return self.seat_job(Check(), ["check"], commands.check)

    def one_step(self, place):
        """Whether there was a request."""
        seat = self.seats[place]
        request = seat.client.pending
        if seat.crashed or not request:
            return False
        seat.last = request.frame()
        seat.take(request.reply(self.answered(seat.last, request)))
        return True

    def answered(self, frame, request):
        """What the store says to a request."""
        self.line("ask", digits(frame))
        say = self.store.answer(request.what)
        self.prints("said", shown(request.reply(say).frame()))
        self.prints("served", 1)
        return say

    def step(self, place):
        self.one_step(place)

    def steps(self, place):
        while self.one_step(place):
            pass

    finish = steps

    def until(self, place, word):
        while self.seats[place].pending() != word and self.one_step(place):
            pass

    def fault(self, place, word):
        """A step in which the device fails."""
        self.arm(word)
        self.one_step(place)
        self.disarm()

    def fault_read(self, place, word):
        """A step of a store that was just opened, in which the device fails; one that remembers, where a `kept read` fails."""
        if word == "read":
            self.restart()
        self.fault(place, word.removeprefix("kept "))

    def late(self, place):
        """A client's last request is answered once more, to nobody."""
        self.serve(self.seats[place].last)

    def crash(self, place):
        """A client sends no more."""
        self.seats[place].crashed = True

    def spoil(self, kind, name, under):
        """Each byte of an object is turned, one after another, and then the object is cut at each length; it lies under
        its name (`same`), or under that of its bytes (`own`). After each a check is made: how it ends. Of the store no line tells."""
        store = copy.deepcopy(self.store)
        objects = store.objects[kind]
        whole, ends = objects.pop(name), []
        for data in turned(whole) + [whole[:length] for length in range(len(whole))]:
            place = name if under == "same" else name_of(data)
            objects[place] = data
            ends.append(self.checked(store))
            objects.pop(place)
        return ends

    def checked(self, store):
        """A check of a store: its words, and what is at fault."""
        client = Client(Check(), commands.INSTANCE, HOST, TIME)
        seat = Seat(self.title, client, ["check"], commands.check, (), {})
        while client.pending:
            seat.take(client.pending.reply(store.answer(client.pending.what)))
        seat.tells(self)
        return client.outcome.text + "".join(f" {thing} {what}" for thing, _, what in client.outcome.faults or [])

    def report(self):
        """What the store holds."""
        self.line("report")
        for what in (*KINDS, "ledger"):
            self.store.needs(what)
        packs, indexes, snapshots = (len(self.store.objects[kind]) for kind in KINDS)
        live = len(self.store.ledger.live)
        self.prints("store", f"packs {packs} indexes {indexes} snapshots {snapshots} live {live}")
        self.prints("failures", self.store.failures)


def turned(data):
    """Bytes, of which one has another lowest bit: the first, the second, and so on."""
    return [data[:at] + bytes([data[at] ^ 1]) + data[at + 1:] for at in range(len(data))]


class FolderClient(FedClient):
    """A backup of entries, which is fed them as they are found in a folder."""

    def __init__(self, entries, host, time):
        self.items, self.rest = items_of(entries), None
        super().__init__(Fed(), commands.INSTANCE, host, time)

    def take(self, reply):
        super().take(reply)
        while self.wants and self.outcome is None:
            word, what = self.rest or next(self.items)
            code, taken = self.feed(word, what)
            self.rest = ("bytes", what[taken:]) if word == "bytes" and taken < len(what) else None
            if code is not None:
                self.feed("abandon")


class Seat:
    """A client at a store, what it sent last, and what it got; and the command that it is of."""

    def __init__(self, title, client, words, command, values, given):
        self.title, self.client, self.crashed, self.last = title, client, False, None
        self.words, self.command, self.values, self.given = words, command, values, given
        self.replies = []

    def take(self, reply):
        self.replies.append(reply.frame())
        self.client.take(reply)

    def pending(self):
        """The word for the request that is pending."""
        if not self.client.pending:
            return None
        what = self.client.pending.what
        return f"{what[0]}-{what[2]}" if what[0] in ("put", "delete") else what[0]

    def tells(self, script):
        """Tells of the run of the program over what it got, once, where several got the same. One that got no more than this ends where
        it reads on."""
        server = commands.Server(b"".join(self.replies), time=self.client.time)
        key = name_of(server.replies + repr((self.words, self.client.time, self.given)).encode())
        if key in script.known:
            return
        script.known.add(key)
        run = commands.run(self.command, server, *self.values)
        script.command(self.words, run, server, title=self.title, **self.given)
