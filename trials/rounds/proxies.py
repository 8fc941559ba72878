"""What is between a machine and its server: connections that are cut or that stand still, and the tokens that go over them."""
import socket
import threading
import time
from dataclasses import dataclass
from typing import Callable

from connections import ended, listening
from trying import WAIT, awaits, holds

TOKEN = 129


class Tokens:
    """The tokens that a store gave. None may come twice."""

    def __init__(self):
        self.seen, self.twice, self.lock = set(), set(), threading.Lock()

    def adds(self, token):
        with self.lock:
            (self.twice if token in self.seen else self.seen).add(token)

    def keeps(self, greatest):
        """Forgets those above one: they were given in a history that a power cut undid."""
        with self.lock:
            self.seen = {token for token in self.seen if token <= greatest}

    def now(self):
        """A copy of those that were given so far."""
        with self.lock:
            return set(self.seen)


class Replies:
    """Reads the frames of a stream of replies, and notes each token in it."""

    def __init__(self, tokens):
        self.tokens, self.head, self.skip = tokens, b"", 0

    def takes(self, piece):
        while piece:
            passed, piece = piece[:self.skip], piece[self.skip:]
            self.skip -= len(passed)
            if not piece:
                return
            wanted = 37 if len(self.head) >= 5 and self.head[4] == TOKEN else 5
            self.head, piece = self.head + piece[:wanted - len(self.head)], piece[wanted - len(self.head):]
            if len(self.head) == 5 and self.head[4] == TOKEN:
                continue
            if len(self.head) == wanted:
                if wanted == 37:
                    self.tokens.adds(int.from_bytes(self.head[29:37], "big"))
                self.skip = 4 + int.from_bytes(self.head[:4], "big") - wanted
                self.head = b""


@dataclass
class Trouble:
    """The first connection that brings so many bytes is cut there, or stands still for so long. Then `happened` is called."""

    word: str
    at: int
    seconds: float
    happened: Callable


class Proxy:
    """An address that leads to whoever serves now. `connects` gives a connection to that server."""

    def __init__(self, connects, tokens):
        self.connects, self.tokens = connects, tokens
        self.troubles, self.faults, self.running, self.lock = [], [], 0, threading.Lock()
        self.probe, self.is_probed = None, threading.Event()
        self.socket, self.holder = listening()
        self.address = f"127.0.0.1:{self.socket.getsockname()[1]}"
        threading.Thread(target=self.accepts, daemon=True).start()

    def connected(self):
        """A client's connection."""
        return socket.create_connection(self.socket.getsockname(), timeout=WAIT)

    def closes(self):
        ended(self.socket)
        self.socket.close()
        self.holder.close()

    def accepts(self):
        while True:
            try:
                client, address = self.socket.accept()
            except OSError:
                return
            if address == self.probe:
                client.close()
                self.is_probed.set()
                continue
            # A connection counts from here on. Its thread may start late.
            self.counts(1)
            threading.Thread(target=self.takes, args=(client,), daemon=True).start()

    def settles(self):
        """Returns once all connections that clients began so far have ended. The system hands connections out in their order, so all that were
        begun are counted once a probe behind them has come."""
        with socket.socket() as probe:
            probe.bind(("127.0.0.1", 0))
            self.is_probed.clear()
            self.probe = probe.getsockname()
            probe.connect(self.socket.getsockname())
            holds(self.is_probed.wait(WAIT), f"a proxy takes no connection in {WAIT} seconds")
        self.probe = None
        awaits(lambda: self.running == 0, f"{self.running} connections end")

    def troubled(self, trouble):
        with self.lock:
            self.troubles.append(trouble)

    def calms(self):
        """No connection is cut or stands still any more."""
        with self.lock:
            self.troubles.clear()

    def counts(self, more):
        """So many more connections are under way."""
        with self.lock:
            self.running += more

    def takes(self, client):
        client.settimeout(WAIT)
        try:
            with client, self.connects() as server:
                threading.Thread(target=self.brings, args=(client, server, None), daemon=True).start()
                self.brings(server, client, Replies(self.tokens))
        except OSError:
            pass
        except Exception as error:  # noqa: BLE001
            self.faults.append(f"a proxy: {type(error).__name__}: {error}")
        finally:
            self.counts(-1)

    def brings(self, source, sink, replies):
        """Brings what comes, until it ends, or is cut."""
        try:
            self.brings_all(source, sink, replies)
        except OSError:
            ended(source, sink)
        except Exception as error:  # noqa: BLE001
            self.faults.append(f"a proxy: {type(error).__name__}: {error}")
            ended(source, sink)

    def brings_all(self, source, sink, replies):
        count = 0
        while piece := source.recv(65536):
            count += len(piece)
            if replies:
                replies.takes(piece)
            if self.is_cut(count):
                sink.sendall(piece[:len(piece) // 2])
                ended(source, sink)
                return
            sink.sendall(piece)
        sink.shutdown(socket.SHUT_RDWR if replies else socket.SHUT_WR)

    def is_cut(self, count):
        """Whether a connection that brought so many bytes is cut here. If it is to stand still, it does so first."""
        due = self.due(count)
        for trouble in due:
            trouble.happened()
            if trouble.word == "stall":
                time.sleep(trouble.seconds)
        return any(trouble.word == "cut" for trouble in due)

    def due(self, count):
        """The troubles that come after so many bytes, if no other connection had them before."""
        with self.lock:
            due = [trouble for trouble in self.troubles if trouble.at <= count]
            self.troubles = [trouble for trouble in self.troubles if trouble.at > count]
        return due
