"""Frames: what a client asks and a store says, as bytes and back.

An ask is a tuple whose first item is its word: ("ticket",), ("lock", token, exclusive, time, host),
("refresh", token, time), ("unlock", token), ("locks",), ("list", kind, after or None), ("get", kind, name),
("range", pack, offset, length), ("put", token, kind, name, data), ("delete", token, kind, name), ("config",), ("upgrade", token).
A say: ("token", token), ("done",), ("names", more, names), ("bytes", data), ("rows", rows), ("refused", code).
"""

import struct
from dataclasses import dataclass

KINDS = ["pack", "index", "snapshot"]
TAGS = {"ticket": 1, "lock": 2, "refresh": 3, "unlock": 4, "locks": 5, "list": 6, "get": 7, "range": 8,
        "put": 9, "delete": 10, "config": 11, "upgrade": 12,
        "token": 129, "done": 130, "names": 131, "bytes": 132, "rows": 133, "refused": 134}
LEAST, GREATEST = 25, 26_214_400
PAGE = 256


class Malformed(Exception):
    """A stream that is none of frames: `length`, `tag` or `fields`."""


@dataclass
class Message:
    """An ask or a say, of a client and with a number."""
    instance: bytes
    sequence: int
    what: tuple

    def reply(self, what):
        """The reply to it that says this."""
        return Message(self.instance, self.sequence, what)

    def frame(self):
        body = bytes([TAGS[self.what[0]]]) + self.instance + u64(self.sequence) + fields_of(self.what)
        return u32(len(body)) + body


def u16(number):
    return struct.pack(">H", number)


def u32(number):
    return struct.pack(">I", number)


def u64(number):
    return struct.pack(">Q", number)


def host_of(host):
    text = host.encode()
    return bytes([len(text)]) + text


def row_of(row):
    token, exclusive, time, host = row
    return u64(token) + bytes([exclusive]) + u64(time) + host_of(host)


def kind_of(kind):
    return bytes([KINDS.index(kind)])


def fields_of(what):
    """The bytes of the fields, by the table of messages."""
    match what:
        case ("ticket",) | ("locks",) | ("config",) | ("done",):
            return b""
        case ("lock", *row):
            return row_of(row)
        case ("refresh", token, time):
            return u64(token) + u64(time)
        case ("unlock", token) | ("upgrade", token) | ("token", token):
            return u64(token)
        case ("list", kind, None):
            return kind_of(kind) + b"\0"
        case ("list", kind, after):
            return kind_of(kind) + b"\1" + after
        case ("get", kind, name):
            return kind_of(kind) + name
        case ("range", pack, offset, length):
            return pack + u32(offset) + u32(length)
        case ("put", token, kind, name, data):
            return u64(token) + kind_of(kind) + name + data
        case ("delete", token, kind, name):
            return u64(token) + kind_of(kind) + name
        case ("names", more, names):
            return bytes([more]) + u16(len(names)) + b"".join(names)
        case ("bytes", data):
            return data
        case ("rows", rows):
            return u16(len(rows)) + b"".join(row_of(row) for row in rows)
        case ("refused", code):
            return bytes([code])
    raise ValueError(what)


class Fields:
    """The fields of a body, read one after another. What is cut or outside its values is malformed."""

    def __init__(self, data):
        self.data = data

    def take(self, count):
        if len(self.data) < count:
            raise Malformed("fields")
        piece, self.data = self.data[:count], self.data[count:]
        return piece

    def number(self, count):
        return int.from_bytes(self.take(count), "big")

    def below(self, count, limit):
        number = self.number(count)
        if number >= limit:
            raise Malformed("fields")
        return number

    def kind(self):
        return KINDS[self.below(1, 3)]

    def host(self):
        length = self.number(1)
        if length == 0:
            raise Malformed("fields")
        try:
            return self.take(length).decode()
        except UnicodeDecodeError:
            raise Malformed("fields")

    def row(self):
        return (self.number(8), bool(self.below(1, 2)), self.number(8), self.host())

    def rest(self):
        return self.take(len(self.data))

    def after(self):
        return self.take(32) if self.below(1, 2) else None

    def code(self):
        code = self.below(1, 15)
        if code == 0:
            raise Malformed("fields")
        return code


REQUESTS = {
    1: lambda f: ("ticket",),
    2: lambda f: ("lock", *f.row()),
    3: lambda f: ("refresh", f.number(8), f.number(8)),
    4: lambda f: ("unlock", f.number(8)),
    5: lambda f: ("locks",),
    6: lambda f: ("list", f.kind(), f.after()),
    7: lambda f: ("get", f.kind(), f.take(32)),
    8: lambda f: ("range", f.take(32), f.number(4), f.number(4)),
    9: lambda f: ("put", f.number(8), f.kind(), f.take(32), f.rest()),
    10: lambda f: ("delete", f.number(8), f.kind(), f.take(32)),
    11: lambda f: ("config",),
    12: lambda f: ("upgrade", f.number(8)),
}
REPLIES = {
    129: lambda f: ("token", f.number(8)),
    130: lambda f: ("done",),
    131: lambda f: ("names", bool(f.below(1, 2)), [f.take(32) for _ in range(f.below(2, PAGE + 1))]),
    132: lambda f: ("bytes", f.rest()),
    133: lambda f: ("rows", [f.row() for _ in range(f.below(2, PAGE + 1))]),
    134: lambda f: ("refused", f.code()),
}


def message_of(body, table):
    """The message of a body."""
    if body[0] not in table:
        raise Malformed("tag")
    instance, sequence = body[1:17], int.from_bytes(body[17:25], "big")
    fields = Fields(body[25:])
    what = table[body[0]](fields)
    if fields.data:
        raise Malformed("fields")
    return Message(instance, sequence, what)


class Stream:
    """A stream of frames, read to its end."""

    def __init__(self, data, table):
        self.data, self.table = memoryview(data), table

    def next(self):
        """The next message; None where the stream ends before one is whole."""
        if len(self.data) < 4:
            return None
        length = int.from_bytes(self.data[:4], "big")
        if not LEAST <= length <= GREATEST:
            raise Malformed("length")
        if len(self.data) < 4 + length:
            return None
        body, self.data = bytes(self.data[4:4 + length]), self.data[4 + length:]
        return message_of(body, self.table)
