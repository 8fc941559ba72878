#!/usr/bin/env python3
"""Sends a server requests, each after the reply to the one before. Usage: bench/requests.py PORT COMMAND COUNT

`locks`: COUNT times a ticket, a lock and its unlock. `puts`: COUNT objects of 8 bytes. `crowded`: others, beside as many locks and
tickets as a store has. `lists`: the names of all packs, COUNT times. Prints how many requests were answered as they should be; another
answer ends it.
"""
import socket
import sys
from hashlib import sha256
from pathlib import Path

sys.path.insert(0, str(Path(__file__).resolve().parents[1] / "scripts/cases"))
from frames import Message  # noqa: E402

INSTANCE = bytes(16)


class Talk:
    """A connection, and how many requests were answered over it."""

    def __init__(self, port):
        self.stream = socket.create_connection(("127.0.0.1", port))
        self.stream.setsockopt(socket.IPPROTO_TCP, socket.TCP_NODELAY, 1)
        self.count = 0

    def take(self, length):
        data = b""
        while len(data) < length:
            part = self.stream.recv(length - len(data))
            if not part:
                sys.exit("the connection ended")
            data += part
        return data

    def ask(self, tag, *what):
        """Asks, and gives the fields of the reply, which has to have this tag."""
        self.count += 1
        self.stream.sendall(Message(INSTANCE, self.count, what).frame())
        body = self.take(int.from_bytes(self.take(4), "big"))
        if body[0] != tag:
            sys.exit(f"{what[0]}: {body.hex()}")
        return body[25:]

    def locked(self):
        token = int.from_bytes(self.ask(129, "ticket"), "big")
        self.ask(130, "lock", token, False, 5, "bench")
        return token


def locks(talk, count):
    for _ in range(count):
        talk.ask(130, "unlock", talk.locked())


def puts(talk, count, first=0):
    token = talk.locked()
    for number in range(first, first + count):
        data = number.to_bytes(8, "big")
        talk.ask(130, "put", token, "pack", sha256(data).digest(), data)
    talk.ask(130, "unlock", token)


def crowded(talk, count):
    for _ in range(255):
        talk.locked()
    for _ in range(1_023):
        talk.ask(129, "ticket")
    puts(talk, count, 1_000_000)


def lists(talk, count):
    for _ in range(count):
        more, after = True, None
        while more:
            page = talk.ask(131, "list", "pack", after)
            more, after = page[0] == 1, page[-32:]


if __name__ == "__main__":
    talk = Talk(int(sys.argv[1]))
    {"locks": locks, "puts": puts, "crowded": crowded, "lists": lists}[sys.argv[2]](talk, int(sys.argv[3]))
    print(talk.count)
