"""The commands of clients over what a server says: their status, what they send, show and tell."""

from dataclasses import dataclass, field

from checks import Check
from frames import REPLIES, REQUESTS, Malformed, Message, Stream
from jobs import Client, Fed, FedClient, Forget, List, Restore, StartRefused, gone, items_of
from prunes import Prune, Upgrade

INSTANCE = bytes([1]) * 16
STALE = 1_800
# What isn't printed as it is: control characters, ends of lines and of paragraphs, and turns of the direction of writing.
HIDDEN = (range(0x20), range(0x7F, 0xA0), range(0x2028, 0x202A), range(0x61C, 0x61D), range(0x200E, 0x2010), range(0x202A, 0x202F),
          range(0x2066, 0x206A))


def printed(text):
    """A text of others as it is printed."""
    return "".join(f"\\u{{{ord(char):x}}}" if any(ord(char) in hidden for hidden in HIDDEN) else char for char in text)



class Failed(Exception):
    """A command that ends without completing, and its text."""


@dataclass
class Server:
    """What a server says, and how a command's streams behave."""
    replies: bytes = b""
    sent_room: int | None = None
    output_room: int | None = None
    stop: int | None = None
    time: int = 5


@dataclass
class Run:
    """What came of a command."""
    status: int = 0
    sent: bytearray = field(default_factory=bytearray)
    given: list = field(default_factory=list)
    output: bytes = b""
    faults: str = ""


def written(taken, room, data):
    """What a writer took, and whether it took all."""
    if room is None or len(taken) + len(data) <= room:
        return taken + data, True
    return taken + data[:room - len(taken)], False


class Talk:
    """A connection: requests are sent, and the replies to them read. Others are passed over."""

    def __init__(self, server, run):
        self.server, self.run = server, run
        self.stream = Stream(server.replies, REPLIES)

    def send(self, request):
        frame, sent, room = request.frame(), self.run.sent, self.server.sent_room
        left = len(frame) if room is None else room - len(sent)
        sent += frame[:left]
        if left < len(frame):
            raise Failed("write failed")

    def hear(self, request):
        while True:
            try:
                reply = self.stream.next()
            except Malformed:
                raise Failed("malformed")
            if reply is None:
                raise Failed("read failed")
            if (reply.instance, reply.sequence) == (request.instance, request.sequence):
                return reply

    def ask(self, sequence, ask):
        """What is said to one ask, by which the command stands or falls."""
        request = Message(INSTANCE, sequence, ask)
        self.send(request)
        return self.hear(request).what

    def drive(self, client):
        """Brings a client to its end."""
        while client.pending:
            request = client.pending
            self.send(request)
            client.take(self.hear(request))
            for part in client.emitted:
                if len(self.run.given) == self.server.stop:
                    self.take_leave(client)
                    raise Failed("stopped")
                self.run.given.append(part)
        return client.outcome

    def take_leave(self, client):
        """Asks for the end of a client's lock, in the place of what is pending. What comes of it isn't told."""
        if not client.pending:
            return
        try:
            self.ask(client.pending.sequence, ("unlock", client.token))
        except Failed:
            pass

    def show(self, text):
        self.run.output, whole = written(self.run.output, self.server.output_room, text.encode())
        if not whole:
            raise Failed("write failed")


def unwelcome(say):
    return Failed(f"refused {say[1]}" if say[0] == "refused" else "badreply")


def rows_of(say):
    if say[0] != "rows":
        raise unwelcome(say)
    return say[1]


def done(say):
    if say != ("done",):
        raise unwelcome(say)


def locks(talk):
    lines = ""
    for token, exclusive, time, host in rows_of(talk.ask(1, ("locks",))):
        lines += f"{token} {'exclusive' if exclusive else 'shared'} {time} {printed(host)}\n"
    talk.show(lines)


def refresh(talk, token):
    done(talk.ask(1, ("refresh", token, talk.server.time)))
    talk.show("refreshed\n")


def unlock(talk, everything):
    now = talk.server.time
    rows = rows_of(talk.ask(1, ("locks",)))
    chosen = [row[0] for row in rows if everything or now > row[2] and now - row[2] > STALE]
    for sequence, token in enumerate(chosen, 2):
        done(talk.ask(sequence, ("unlock", token)))
        talk.show(f"removed {token}\n")


def job(talk, core, host):
    return done_by(talk.drive(Client(core, INSTANCE, host, talk.server.time)))


def done_by(outcome):
    """An outcome of a job that did what it was for."""
    word = outcome.text.split(" ")[0]
    if word not in ("stored", "complete", "listed", "forgotten", "pruned", "clean", "faults", "upgraded"):
        raise Failed(unfinished(outcome))
    return outcome


def unfinished(outcome):
    """How a job ended that didn't do what it was for; and on a line of its own the object that is missing or can't be read, if it ended by one."""
    if outcome.name is None:
        return outcome.text
    return f"{outcome.text}\n{outcome.text.split(' ')[1]} {outcome.name.hex()}"


def snapshots(talk):
    rows = job(talk, List(), "vault").rows
    talk.show("".join(f"{name.hex()} {time} {printed(host)}\n" for name, host, time, _ in rows))


def restore(talk, name):
    talk.show(job(talk, Restore(name), "vault").text + "\n")


def prune(talk):
    talk.show(job(talk, Prune(), "vault").text + "\n")


def upgrade(talk):
    talk.show(job(talk, Upgrade(), "vault").text + "\n")


def check(talk):
    outcome = job(talk, Check(), "vault")
    if not outcome.faults:
        return talk.show(outcome.text + "\n")
    talk.show("".join(f"fault {thing} {name.hex()} {what}\n" for thing, name, what in outcome.faults))
    talk.run.status = 3


def would_forget(talk, names, policy=None, host=None):
    if policy == (0, 0):
        raise Failed("no policy")
    rows = job(talk, List(), "vault").rows
    chosen = gone(rows, policy, host) if policy else [row[0] for row in rows if row[0] in names]
    talk.show("".join(f"would forget {name.hex()}\n" for name in chosen))


def forget(talk, names, policy=None, host=None):
    try:
        core = Forget(names, policy, host)
    except StartRefused:
        raise Failed("no policy")
    talk.show("".join(f"forgotten {name.hex()}\n" for name in job(talk, core, "vault").forgotten))


def fed(talk, client, items):
    """Feeds a backup while it is driven: the number of the reason why an item isn't taken, for which it is given up."""
    refused, rest = None, None
    talk.drive(client)
    while client.wants and client.outcome is None:
        word, what = rest or next(items)
        code, taken = client.feed(word, what)
        rest = ("bytes", what[taken:]) if word == "bytes" and taken < len(what) else None
        if code is not None:
            refused = code
            client.feed("abandon")
        try:
            talk.drive(client)
        except Failed:
            if refused is not None:
                talk.run.faults += f"start refused {refused}\n"
            raise
    return refused


def backup(talk, host, entries, skipped):
    client = FedClient(Fed(), INSTANCE, host, talk.server.time)
    refused = fed(talk, client, items_of(entries))
    if refused is not None:
        raise Failed(f"start refused {refused}")
    for text in skipped:
        talk.run.faults += f"skipped {text}\n"
    outcome = done_by(client.outcome)
    _, blobs, count = outcome.text.split(" ")
    talk.show(f"stored {outcome.name.hex()} {blobs} {count}\n")
    if skipped:
        talk.run.status = 3


def run(command, server, *words):
    """What comes of a command."""
    ran = Run()
    try:
        command(Talk(server, ran), *words)
    except Failed as failed:
        ran.status = 1
        ran.faults += f"{failed}\n"
    return ran


def served(store, data, broken=False, room=None):
    """What a connection's bytes are answered with, and how its service ends."""
    stream, replies, count = Stream(data, REQUESTS), b"", 0
    while True:
        try:
            request = stream.next()
        except Malformed:
            return replies, "malformed"
        if request is None:
            break
        reply = request.reply(store.answer(request.what))
        replies, whole = written(replies, room, reply.frame())
        if not whole:
            return replies, "write failed"
        count += 1
    if broken:
        return replies, "read failed"
    return replies, "malformed" if stream.data else str(count)


class Lines:
    """`vault frames`: lines of digits, whose bytes are a stream of requests."""

    def __init__(self, store, room):
        self.store, self.room, self.output, self.data = store, room, b"", b""

    def take(self, number, line):
        """Answers the requests that are whole with this line."""
        if len(line) % 2 or any(digit not in "0123456789abcdefABCDEF" for digit in line):
            raise Failed(f"line {number}: not hexadecimal")
        stream = Stream(self.data + bytes.fromhex(line), REQUESTS)
        try:
            while request := stream.next():
                self.show(request.reply(self.store.answer(request.what)))
        except Malformed as fault:
            raise Failed(f"malformed: {fault}")
        self.data = bytes(stream.data)

    def show(self, reply):
        self.output, whole = written(self.output, self.room, reply.frame().hex().encode() + b"\n")
        if not whole:
            raise Failed("write failed")

    def run(self, text, broken):
        lines = text.split("\n")
        last = lines.pop()
        for number, line in enumerate(lines, 1):
            self.take(number, line)
        if broken:
            raise Failed("read failed")
        if last:
            self.take(len(lines) + 1, last)
        if self.data:
            raise Failed("end of input inside a frame")


def framed(store, text, broken=False, room=None):
    """What `vault frames` gives on a text: its status, its lines, its fault."""
    lines = Lines(store, room)
    try:
        lines.run(text, broken)
        return 0, lines.output.decode(), ""
    except Failed as failed:
        return 1, lines.output.decode(), f"{failed}\n"
