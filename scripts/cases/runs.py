"""Runs of the program `vault` itself, each in a process of its own: what it is given, and what has to come of it."""

from dataclasses import dataclass, field
from hashlib import sha256

from commands import INSTANCE, Server

# The place of the server's address among the words, the folder that is backed up, and the one into which is restored.
ADDRESS, FOLDER, TARGET = "ADDRESS", "p", "to"
SHORT = 100


def shown(data):
    """Bytes as they are told: of many the name and the number."""
    return f"sha256 {sha256(data).hexdigest()} of {len(data)}" if len(data) > SHORT else data.hex() or "-"


def frames_of(stream):
    """A stream's frames; what is left at its end is one more."""
    frames = []
    stream = memoryview(stream)
    while stream:
        end = 4 + int.from_bytes(stream[:4], "big") if len(stream) >= 4 else len(stream)
        frames.append(bytes(stream[:end]))
        stream = stream[end:]
    return frames


@dataclass
class Came:
    """What came of a run: its status, the frames that it sent, what stands in the folder of a restore, its texts."""
    status: int = 0
    sent: list = field(default_factory=list)
    restored: dict = field(default_factory=dict)
    output: str = ""
    faults: str = ""

    def brief(self):
        return self.status, self.output.split("\n")[0], self.faults.split("\n")[0]


@dataclass
class Run:
    """A run of the program, and what has to come of it. A server listens where it says something, or nothing, but not where it is None."""
    heading: str
    words: list
    wanted: Came
    typed: bytes = b""
    server: Server | None = None
    slow: bool = False
    broken: bool = False
    shown_room: int | None = None
    entries: list = field(default_factory=list)
    skipped: tuple = ()
    is_brief: bool = False

    def environment(self):
        """What the library is told."""
        of_server = self.server or Server()
        told = {"AT": of_server.time, "CHANCE": INSTANCE[0], "SENT": of_server.sent_room, "PARTS": of_server.stop,
                "SHOWN": of_server.output_room if self.server else self.shown_room, "SLOW": self.slow or None, "BROKEN": self.broken or None,
                "HEARD": self.server and True}
        return {key: str(value) for key, value in told.items() if value is not None}

    def holds(self, came):
        return came.brief() == self.wanted.brief() if self.is_brief else came == self.wanted


def wanted_of(run):
    """What has to come of a command, by what the reference says of it."""
    return Came(run.status, [shown(frame) for frame in frames_of(run.sent)], restored_of(run.given), run.output.decode(), run.faults)


def restored_of(given):
    """What stands in a folder into which this was given out. A file that isn't closed is none."""
    restored, path, data = {}, None, b""
    for word, what in given:
        if word == "dir":
            restored[what] = None
        elif word == "file":
            path, data = what, b""
        elif word == "piece":
            data += what
        else:
            restored[path] = data
    return restored
