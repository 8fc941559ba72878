"""Runs the program `vault`, each time in a process of its own, and tells what came of it.

What a server says is said at once by one that listens here, over a connection of the machine to itself. What the clock and the source
of chance give, how inputs come and what outputs take is by a small library that stands before the program's calls (streams.c).
"""

import os
import selectors
import shutil
import socket
import subprocess
import time
from pathlib import Path

from runs import ADDRESS, FOLDER, TARGET, Came, frames_of, shown

HERE = Path(__file__).resolve().parent
# How long a run may take, in seconds. Nothing is shown by how long it takes; this only ends what hangs.
WAIT = 300
PIECE = 1 << 16
LEFT_OUT = b"\xff"


def entries_below(top):
    """The files and folders below a folder."""
    found = {}
    for at, folders, files in os.walk(top):
        for name in folders + files:
            path = os.path.join(at, name)
            found[os.path.relpath(path, top)] = None if name in folders else Path(path).read_bytes()
    return found


def fill(top, entries, skipped):
    """Makes a folder of these entries, and of what a backup of it leaves out."""
    top.mkdir()
    for path, data in entries:
        place = top.joinpath(*path)
        if data is None:
            place.mkdir(parents=True, exist_ok=True)
        else:
            place.parent.mkdir(parents=True, exist_ok=True)
            place.write_bytes(data)
    for text in skipped:
        folder = text.removeprefix("an entry in ")
        if folder == text:
            (top.parent / text).symlink_to("nowhere")
        else:
            os.close(os.open(os.path.join(os.fsencode(top.parent / folder), LEFT_OUT), os.O_CREAT))


class NoCompiler(Exception):
    """The library can't be made on this machine."""


def compilers():
    """What may make the library: the kit's compiler, or one of the machine."""
    kit = shutil.which("rt")
    return [str(Path(kit).resolve().parents[1] / "toolchain/bin/clang")] * bool(kit) + ["cc", "gcc", "clang"]


def library(folder):
    """Makes the library that stands before the program's calls."""
    made = folder / "streams.so"
    for compiler in filter(shutil.which, compilers()):
        words = [compiler, "-shared", "-fPIC", "-O1", "-nostdlib", "-o", made, HERE / "streams.c"]
        if subprocess.run(words, capture_output=True).returncode == 0:
            return made
    raise NoCompiler("no compiler makes the library that stands before the program's calls")


class Talk:
    """A process, and the ends of its streams that are here: of its inputs and outputs, and of one connection."""

    def __init__(self, process, typed, listener, replies):
        self.process, self.listener, self.connection = process, listener, None
        self.left = {"typed": memoryview(typed), "replies": memoryview(replies)}
        self.came = {"out": bytearray(), "err": bytearray(), "sent": bytearray()}
        self.selector = selectors.DefaultSelector()
        for stream, word in ((process.stdout, "out"), (process.stderr, "err")):
            self.selector.register(stream, selectors.EVENT_READ, word)
        if typed:
            os.set_blocking(process.stdin.fileno(), False)
            self.selector.register(process.stdin, selectors.EVENT_WRITE, "typed")
        elif process.stdin:
            process.stdin.close()
        if listener:
            self.selector.register(listener, selectors.EVENT_READ, "listener")

    def ends(self, stream):
        self.selector.unregister(stream)
        stream.close()

    def accepts(self):
        try:
            self.connection, _ = self.listener.accept()
        except BlockingIOError:
            return
        self.connection.setblocking(False)
        self.selector.register(self.connection, selectors.EVENT_READ | selectors.EVENT_WRITE, "connection")

    def reads(self, stream, word, read):
        try:
            piece = read(PIECE)
        except BlockingIOError:
            return
        except ConnectionError:
            piece = b""
        if piece:
            self.came[word] += piece
        else:
            self.ends(stream)

    def writes(self, word, write):
        """Writes what may be written now; whether there is more, and somebody who takes it."""
        try:
            self.left[word] = self.left[word][write(self.left[word][:PIECE]):]
        except BlockingIOError:
            return True
        except OSError:
            return False
        return bool(self.left[word])

    def says(self):
        is_more = bool(self.left["replies"]) and self.writes("replies", self.connection.send)
        if not is_more:
            self.selector.modify(self.connection, selectors.EVENT_READ, "connection")
            try:
                self.connection.shutdown(socket.SHUT_WR)
            except OSError:
                pass

    def goes_on(self, stream, word, events):
        if word == "listener":
            self.accepts()
        elif word == "typed":
            if not self.writes("typed", lambda piece: os.write(stream.fileno(), piece)):
                self.ends(stream)
        elif word == "connection":
            if events & selectors.EVENT_WRITE:
                self.says()
            if events & selectors.EVENT_READ:
                self.reads(stream, "sent", stream.recv)
        else:
            self.reads(stream, word, stream.read1)

    def run(self):
        """Goes on until the process has ended, and all that it wrote is here."""
        until = time.monotonic() + WAIT
        while any(key.data != "listener" for key in self.selector.get_map().values()):
            for key, events in self.selector.select(1):
                self.goes_on(key.fileobj, key.data, events)
            if time.monotonic() > until:
                self.process.kill()
        if self.listener and self.connection is None:
            # A connection that was made, and is ended already.
            self.accepts()
            if self.connection:
                return self.run()
        self.selector.close()
        return self.process.wait()


class Runner:
    """Runs the program, one run at a time, in a folder of its own."""

    def __init__(self, program, folder):
        self.program, self.top = os.path.abspath(program), Path(folder)
        self.place = self.top / "runs"
        self.place.mkdir()
        self.library = str(library(self.top))
        self.listener = socket.socket()
        self.listener.bind(("127.0.0.1", 0))
        self.listener.listen()
        self.listener.setblocking(False)
        self.address = f"127.0.0.1:{self.listener.getsockname()[1]}"

    def came(self, run, more=None):
        """What comes of a run; `more` stands in its environment besides, another library of it behind this one."""
        if run.server:
            shutil.rmtree(self.place, ignore_errors=True)
            self.place.mkdir()
            fill(self.place / FOLDER, run.entries, run.skipped)
            (self.place / TARGET).mkdir()
        words = [self.address if word == ADDRESS else word for word in run.words]
        environment = os.environ | run.environment() | (more or {})
        environment["LD_PRELOAD"] = " ".join([self.library, *filter(None, [(more or {}).get("LD_PRELOAD")])])
        streams = {"stdin": subprocess.PIPE if run.typed else subprocess.DEVNULL, "stdout": subprocess.PIPE, "stderr": subprocess.PIPE}
        process = subprocess.Popen([self.program, *words], cwd=self.place, env=environment, **streams)
        talk = Talk(process, run.typed, self.listener if run.server else None, run.server.replies if run.server else b"")
        status = talk.run()
        sent = [shown(frame) for frame in frames_of(bytes(talk.came["sent"]))]
        restored = entries_below(self.place / TARGET) if run.server else {}
        return Came(status, sent, restored, *(bytes(talk.came[word]).decode(errors="replace") for word in ("out", "err")))
