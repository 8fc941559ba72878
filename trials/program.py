"""The program as it is run: its commands, its server, and the frames by which a server is asked."""
import os
import re
import signal
import socket
import subprocess
from contextlib import contextmanager
from pathlib import Path

from trying import OPTIONS, WAIT, same

LISTENING = b"listening\n"
# So often another port is tried, where somebody else took the one that was free.
TRIES = 50


def told(*words, stdin=None, stdout=subprocess.PIPE, env=None):
    """What a command tells: its status, its output and its faults, with `|` between them."""
    how = {"input": stdin.encode()} if stdin is not None else {"stdin": subprocess.DEVNULL}
    environment = os.environ | env if env else None
    run = subprocess.run([OPTIONS.program, *map(str, words)], stdout=stdout, stderr=subprocess.PIPE, env=environment, timeout=WAIT, **how)
    return f"{run.returncode}|{(run.stdout or b'').decode(errors='replace')}|{run.stderr.decode(errors='replace')}"


def matches(got, pattern, what=""):
    """What is told is of this form; what stands in parentheses there."""
    found = re.fullmatch(pattern, got, re.S)
    if not found:
        raise AssertionError(f"{what}{': ' if what else ''}{got!r} isn't of the form {pattern!r}")
    return found.groups()


def free_port():
    with socket.socket() as it:
        it.bind(("127.0.0.1", 0))
        return it.getsockname()[1]


class Closed:
    """An address at which nobody listens: its port is taken, and stays so."""

    def __enter__(self):
        self.socket = socket.socket()
        self.socket.bind(("127.0.0.1", 0))
        return f"127.0.0.1:{self.socket.getsockname()[1]}"

    def __exit__(self, *_):
        self.socket.close()


class Server:
    """A store's folder that is served at a port that was free."""

    def __init__(self, store, *words, connections=1, before=(), env=None, preexec_fn=None):
        how = {"stdin": subprocess.DEVNULL, "stdout": subprocess.PIPE, "stderr": subprocess.PIPE, "preexec_fn": preexec_fn}
        how["env"] = os.environ | env if env else None
        for _ in range(TRIES):
            self.port = free_port()
            self.address = f"127.0.0.1:{self.port}"
            serve = [OPTIONS.program, "serve", str(store), self.address, "--connections", str(connections), *map(str, words)]
            self.process = subprocess.Popen([*before, *serve], **how)
            if self.process.stdout.readline() == LISTENING:
                return
            faults = self.process.communicate(timeout=WAIT)[1]
            if faults != b"not reached\n":
                raise AssertionError(f"serve: {faults.decode(errors='replace')}")
        raise AssertionError("serve: no port could be had")

    def __enter__(self):
        return self

    def __exit__(self, *_):
        self.kill()

    def kill(self):
        # strace would leave the program running.
        children = Path(f"/proc/{self.process.pid}/task/{self.process.pid}/children")
        for child in children.read_text().split() if self.process.poll() is None else ():
            os.kill(int(child), signal.SIGKILL)
        self.process.kill()
        self.process.communicate()

    def end(self):
        """What it tells behind `listening`, once all its connections were served."""
        out, faults = self.process.communicate(timeout=WAIT)
        return f"{self.process.returncode}|{out.decode()}|{faults.decode()}"

    @contextmanager
    def paused(self):
        """What comes meanwhile it finds all at once."""
        os.kill(self.process.pid, signal.SIGSTOP)
        try:
            yield
        finally:
            os.kill(self.process.pid, signal.SIGCONT)

    def connected(self, sent=b""):
        """A client that has sent these bytes, and stays."""
        client = socket.create_connection(("127.0.0.1", self.port), timeout=WAIT)
        client.sendall(sent)
        return client

    def asked(self, digits, is_last=True):
        """The reply to these bytes, both in hexadecimal."""
        with self.paused():
            client = self.connected(bytes.fromhex(digits))
            if is_last:
                client.shutdown(socket.SHUT_WR)
        with client:
            return rest_of(client).hex()


def rest_of(client):
    """What comes over a connection until it ends."""
    came = b""
    try:
        while piece := client.recv(65536):
            came += piece
    except ConnectionResetError:
        pass
    return came


def frame(tag, *fields, sequence=1, instance=bytes([1] * 16)):
    """A frame: the length of its body, and the body."""
    body = bytes([tag]) + instance + sequence.to_bytes(8, "big") + b"".join(fields)
    return len(body).to_bytes(4, "big") + body


def read_frame(stream):
    """The next whole frame of a connection, or nothing where it ends before."""
    whole = b""
    while len(whole) < 4 or len(whole) < 4 + int.from_bytes(whole[:4], "big"):
        wanted = 4 - len(whole) if len(whole) < 4 else 4 + int.from_bytes(whole[:4], "big") - len(whole)
        piece = stream.recv(min(wanted, 1 << 20))
        if not piece:
            return b""
        whole += piece
    return whole


def number(value):
    """A number's eight bytes."""
    return value.to_bytes(8, "big")


def refused(code, sequence=1):
    """The reply of this code, in hexadecimal."""
    return frame(134, bytes([code]), sequence=sequence).hex()


TICKET = frame(1).hex()
DEVICE = refused(10)


def token(value):
    """The reply to a ticket, in hexadecimal."""
    return frame(129, number(value)).hex()


def lock(server, is_exclusive=False, moment=0, host=b"a"):
    """A client takes a lock and keeps it: its token."""
    value = int(server.asked(frame(1).hex())[58:], 16)
    reply = server.asked(frame(2, number(value), bytes([is_exclusive]), number(moment), bytes([len(host)]), host, sequence=2).hex())
    same(reply, frame(130, sequence=2).hex(), "lock")
    return value


def has_status(got, status, what=""):
    same(got.split("|")[0], str(status), f"{what} {got!r}")
