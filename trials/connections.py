"""What stands between clients and a server: lines that bring so many bytes, or whole requests and replies, and then no more."""
import socket
import threading

from program import read_frame
from trying import WAIT

ALL = 1 << 40


class Line:
    """Takes connections one after another, each in the thread of this line, and ends with the block that it stands in."""

    def __init__(self):
        self.socket, self.holder = listening()
        self.address = f"127.0.0.1:{self.socket.getsockname()[1]}"
        self.thread = threading.Thread(target=self.run, daemon=True)

    def __enter__(self):
        self.thread.start()
        return self

    def __exit__(self, *_):
        self.closes()
        self.holder.close()
        self.thread.join(WAIT)

    def closes(self):
        """Nobody is listened to any more."""
        try:
            self.socket.shutdown(socket.SHUT_RDWR)
        except OSError:
            pass
        self.socket.close()

    def run(self):
        while True:
            try:
                client, _ = self.socket.accept()
            except OSError:
                return
            client.settimeout(WAIT)
            with client:
                try:
                    self.takes(client)
                except OSError:
                    pass

    def takes(self, client):
        raise NotImplementedError


def listening():
    """A socket that listens at a free port, and one that holds the port also when the first one is closed."""
    holder, listener = socket.socket(), socket.socket()
    for it in (holder, listener):
        it.setsockopt(socket.SOL_SOCKET, socket.SO_REUSEPORT, 1)
    holder.bind(("127.0.0.1", 0))
    listener.bind(holder.getsockname())
    listener.listen(64)
    return listener, holder


class Cutter(Line):
    """Its connections bring so many bytes of what the server answers, one after another, and after them none can be had."""

    def __init__(self, port, brings):
        super().__init__()
        self.port, self.brings, self.taken = port, list(brings), 0

    def takes(self, client):
        most = self.brings[self.taken]
        self.taken += 1
        if self.taken == len(self.brings):
            self.closes()
        with socket.create_connection(("127.0.0.1", self.port), timeout=WAIT) as server:
            asks = threading.Thread(target=passed_on, args=(client, server), daemon=True)
            asks.start()
            if brought(server, client, most):
                # What is asked arrives still, and is answered; the answer isn't brought.
                client.shutdown(socket.SHUT_WR)
                drained(server)
            ended(client)
            asks.join(WAIT)


def brought(server, client, most):
    """Brings so many bytes; whether there may be more."""
    left = most
    while left > 0:
        piece = server.recv(min(left, 65536))
        if not piece:
            return False
        client.sendall(piece)
        left -= len(piece)
    return True


def drained(server):
    while server.recv(65536):
        pass


def ended(*streams):
    for it in streams:
        try:
            it.shutdown(socket.SHUT_RDWR)
        except OSError:
            pass


def passed_on(client, server):
    """What a client sends, until it sends no more."""
    try:
        while piece := client.recv(65536):
            server.sendall(piece)
        server.shutdown(socket.SHUT_WR)
    except OSError:
        pass


class Said(Line):
    """A server that says these bytes, one connection after another, whatever it is asked, and nothing after them."""

    def __init__(self, *says):
        super().__init__()
        self.says, self.taken, self.asked = list(says), 0, []

    def takes(self, client):
        said = self.says[self.taken]
        self.taken += 1
        if self.taken == len(self.says):
            self.closes()
        client.sendall(said)
        client.shutdown(socket.SHUT_WR)
        came = b""
        while piece := client.recv(65536):
            came += piece
        self.asked.append(came)


class Answering(Line):
    """A server in Python: `answers(number, request)` gives the reply to each request, or nothing, which ends the connection."""

    def __init__(self, answers):
        super().__init__()
        self.answers, self.count = answers, 0

    def takes(self, client):
        while request := read_frame(client):
            reply = self.answers(self.count, request)
            self.count += 1
            if not reply:
                return
            client.sendall(reply)


class Watched(Line):
    """Brings whole requests and replies, in turn. `before(number, request)` is asked before each request is passed on, and
    `after(number, request, reply)` before each reply is; where they give False the connection is ended."""

    def __init__(self, port, before=None, after=None):
        super().__init__()
        self.port, self.count, self.requests = port, 0, []
        self.before, self.after = before or (lambda *_: True), after or (lambda *_: True)

    def takes(self, client):
        with socket.create_connection(("127.0.0.1", self.port), timeout=WAIT) as server:
            while request := read_frame(client):
                at, self.count = self.count, self.count + 1
                self.requests.append(request)
                if self.before(at, request) is False:
                    return
                server.sendall(request)
                reply = read_frame(server)
                if not reply or self.after(at, request, reply) is False:
                    return
                client.sendall(reply)
