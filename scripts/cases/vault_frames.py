"""One long stream of `vault frames`: every ask, by chance and chosen, and what the store says."""

import random

from frames import KINDS, Message
from naming import name_of
from store import Store

HOSTS = ["a", "b c", "mañana", "h" * 255, "末"]


class Talk:
    """Requests and their replies, a line each."""

    def __init__(self):
        self.store, self.asked, self.said, self.sequence = Store(), [], [], 0

    def ask(self, *what, instance=b"\1" * 16):
        self.sequence += 1
        say = self.store.answer(what)
        self.asked.append(Message(instance, self.sequence, what).frame().hex())
        self.said.append(Message(instance, self.sequence, say).frame().hex())
        return say

    def ticket(self):
        return self.ask("ticket")[1]

    def locked(self, exclusive=False):
        token = self.ticket()
        self.ask("lock", token, exclusive, 5, "a")
        return token


def chosen(talk):
    """The first steps of a store, and its limits."""
    a = name_of(b"abc")
    token = talk.locked()
    talk.ask("config")
    for kind in KINDS:
        talk.ask("put", token, kind, a, b"abc")
        talk.ask("get", kind, a)
        talk.ask("list", kind, None)
        talk.ask("delete", token, kind, a)
    talk.ask("put", 7, "snapshot", name_of(b""), bytes(65_537))
    for offset, length in ((0, 0), (0, 1), (0, 3), (1, 2), (2, 2), (3, 1), (0, 8_388_608), (0, 8_388_609), (2**32 - 1, 1), (0, 2**32 - 1)):
        talk.ask("range", a, offset, length)
    talk.ask("upgrade", token)
    talk.ask("unlock", token)
    exclusive = talk.locked(True)
    talk.ask("upgrade", exclusive)
    talk.ask("unlock", exclusive)


def pages(talk):
    """More than a page of packs, put, listed and deleted."""
    token = talk.locked(True)
    names = []
    for number in range(300):
        data = b"pack %d" % number
        names.append(name_of(data))
        talk.ask("put", token, "pack", names[-1], data)
    names.sort()
    for after in (None, names[0], names[43], names[44], names[255], names[256], names[299], bytes(32), b"\xff" * 32):
        talk.ask("list", "pack", after)
    for name in names[::3]:
        talk.ask("delete", token, "pack", name)
    talk.ask("list", "pack", None)
    talk.ask("unlock", token)


def crowd(talk):
    """As many fresh and live tokens as there may be, and more."""
    tokens = [talk.ticket() for _ in range(1_025)]
    talk.ask("lock", tokens[0], False, 5, "a")
    for token in tokens[1:258]:
        talk.ask("lock", token, False, token, "a")
    talk.ask("locks")
    talk.ask("lock", tokens[300], True, 5, "a")
    talk.ask("lock", tokens[1], False, 9, "b")
    talk.ask("lock", tokens[1], True, 9, "b")
    for token in tokens[1:258]:
        talk.ask("unlock", token)
    talk.ask("lock", tokens[300], True, 5, "a")
    talk.ask("lock", tokens[301], False, 5, "a")
    talk.ask("unlock", tokens[300])
    talk.ask("locks")


def token_by_chance(chance, talk):
    ledger = talk.store.ledger
    live = list(ledger.live)
    return chance.choice([*live * 20, ledger.next - 1, ledger.next - 1, ledger.next, 0, 1, 2**64 - 1, *ledger.fresh[-3:]])


def ask_by_chance(chance, talk):
    """One ask, mostly such that it can be done."""
    token, kind = token_by_chance(chance, talk), chance.choice(KINDS)
    data = b"%d" % chance.randrange(30)
    name = name_of(data) if chance.random() < 0.9 else name_of(b"other")
    time = chance.choice([0, 5, 2**64 - 1, chance.randrange(10_000)])
    return chance.choice([
        ("ticket",), ("ticket",), ("lock", token, chance.random() < 0.3, time, chance.choice(HOSTS)),
        ("lock", token, chance.random() < 0.3, time, chance.choice(HOSTS)), ("refresh", token, time), ("unlock", token), ("locks",),
        ("list", kind, chance.choice([None, name])), ("get", kind, name), ("range", name, chance.randrange(3), chance.randrange(4)),
        ("put", token, kind, name, data), ("put", token, kind, name, data), ("put", token, kind, name, data),
        ("delete", token, kind, name), ("delete", token, kind, name), ("config",), ("upgrade", token)])


def by_chance(talk):
    chance = random.Random(1)
    for _ in range(1_200):
        talk.ask(*ask_by_chance(chance, talk), instance=bytes([chance.choice([0, 1, 255])]) * 16)


def stream():
    """The lines of the requests, and those of the replies."""
    talk = Talk()
    for part in (chosen, by_chance, pages, crowd, by_chance):
        part(talk)
    talk.ask("list", "pack", None)
    return "".join(line + "\n" for line in talk.asked), "".join(line + "\n" for line in talk.said)
