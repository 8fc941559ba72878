"""Cases of the commands of clients over what a server says."""

from commands import INSTANCE
from frames import Message
from naming import name_of
from texts import config_text, dump, snapshot_text, tree_text

OPENED = [("token", 1), ("done",), ("bytes", config_text())]
NO_NAMES = ("names", False, [])
OTHER_SAYS = [("token", 9), ("done",), ("names", False, [name_of(b"x")]), ("bytes", b"abc"),
              ("rows", [(1, False, 5, "a")])]
LENGTHS = {"a length below the least": "00000018", "a length above the greatest": "01900001"}
ABC = name_of(b"abc")
# Hosts that aren't printed as they are, each with the characters beside those; and some that are.
ODD_HOSTS = ["a\nb", "\x1b[31m", "\\u{a}", *(f"<{chr(code)}>" for code in (
    0, 0x1F, 0x20, 0x7E, 0x7F, 0x9F, 0xA0, 0x61B, 0x61C, 0x61D, 0x200D, 0x200E, 0x200F, 0x2010, 0x2027, 0x2028, 0x2029, 0x202A, 0x202E, 0x202F,
    0x2065, 0x2066, 0x2069, 0x206A, 0x1F600))]


def say(sequence, what, instance=INSTANCE):
    return Message(instance, sequence, what).frame()


def says(*whats):
    """Replies to requests numbered from 1."""
    return b"".join(say(sequence, what) for sequence, what in enumerate(whats, 1))


def row(token, exclusive=False, time=5, host="a"):
    return (token, exclusive, time, host)


def malformed():
    """Streams that are none of frames, and what is wrong with each."""
    body = INSTANCE + (1).to_bytes(8, "big")
    for text, length in LENGTHS.items():
        yield text, bytes.fromhex(length)
    for text, tag in (("a request's tag", 1), ("a tag of nothing", 12), ("a tag past the last", 135)):
        yield text, bytes.fromhex("00000019") + bytes([tag]) + body
    for text, tag, fields in (
            ("a token that is cut", 129, bytes(7)), ("a token with a byte more", 129, bytes(9)),
            ("done with a byte more", 130, bytes(1)), ("code 0", 134, bytes([0])), ("code 15", 134, bytes([15])),
            ("more that is 2", 131, bytes([2, 0, 0])), ("257 names", 131, bytes([0, 1, 1]) + bytes(32 * 257)),
            ("fewer names than told", 131, bytes([0, 0, 2]) + bytes(32)),
            ("a row without a host", 133, bytes([0, 1]) + bytes(17) + bytes([0])),
            ("a host that is no text", 133, bytes([0, 1]) + bytes(17) + bytes([1, 255])),
            ("a lock that is neither shared nor exclusive", 133, bytes([0, 1]) + bytes(8) + bytes([2]) + bytes(8) + b"\1a")):
        frame = bytes([tag]) + body + fields
        yield text, len(frame).to_bytes(4, "big") + frame


def answers(right):
    """What a server may say in place of the right reply, and what that is."""
    for code in range(1, 14):
        yield f"refused {code}", says(("refused", code))
    for other in OTHER_SAYS:
        if other[0] != right[0]:
            yield "said " + other[0], says(other)
    yield "nothing", b""
    for count in (1, 4, 5, 28):
        yield f"cut after {count} bytes", says(right)[:count]
    yield from malformed()
    yield "to another number first", say(9, ("refused", 2)) + says(right)
    yield "to another instance first", say(1, ("refused", 2), bytes(16)) + says(right)
    yield "to another number alone", say(2, right)


def single(script, word, ask, right):
    """A command that asks once."""
    for text, replies in answers(right):
        script.heading(f"{word}: {text}")
        ask(replies)
    script.heading(f"{word}: byte by byte")
    ask(says(right), slow=True)
    script.heading(f"{word}: the connection breaks")
    ask(says(right)[:9], broken=True)
    for room in (0, 20, 28, 41):
        script.heading(f"{word}: {room} bytes are sent")
        ask(says(right), sent_room=room)
    for room in (0, 3, 7, 400):
        script.heading(f"{word}: {room} bytes are shown")
        ask(says(right), output_room=room)


def locks(script):
    two = ("rows", [row(1, time=8_200), row(2, time=8_199)])
    single(script, "locks", script.locks, two)
    for text, rows in (
            ("none", []), ("an exclusive one", [row(1, True)]),
            ("hosts with spaces and of other letters", [row(3, host="a b"), row(2**64 - 1, True, 2**64 - 1, "mañana-末")]),
            ("a host of 255 bytes", [row(7, host="h" * 255)]),
            ("hosts that leave their line", [row(token, host=host) for token, host in enumerate(ODD_HOSTS, 1)]),
            ("as many as there may be", [row(token, time=token) for token in range(1, 257)])):
        script.heading("locks: " + text)
        script.locks(says(("rows", rows)))


def refresh(script):
    single(script, "refresh", lambda *a, **k: script.refresh(7, *a, **k), ("done",))
    for token in (0, 1, 2**64 - 1):
        script.heading(f"refresh of {token}")
        script.refresh(token, says(("done",)), time=2**63 - 1)


def unlock(script):
    rows = [row(1, time=8_200), row(2, time=8_199), row(3, time=10_001), row(4, time=0)]
    for everything in (False, True):
        word = "unlock all" if everything else "unlock"
        for text, replies in answers(("rows", [])):
            script.heading(f"{word}: {text}")
            script.unlock(everything, replies, time=10_000)
        count = 4 if everything else 2
        good = [("rows", rows)] + [("done",)] * count
        script.heading(f"{word}: each is done")
        script.unlock(everything, says(*good), time=10_000)
        for place in range(1, count + 1):
            for text, reply in (("refused 10", ("refused", 10)), ("refused 2", ("refused", 2)), ("a token", ("token", 1))):
                script.heading(f"{word}: removal {place} is {text}")
                script.unlock(everything, says(*good[:place], reply), time=10_000)
            script.heading(f"{word}: removal {place} is cut")
            script.unlock(everything, says(*good[:place + 1])[:-1], time=10_000)
        script.heading(f"{word}: a removal can't be sent")
        script.unlock(everything, says(*good), time=10_000, sent_room=60)
        script.heading(f"{word}: a removal can't be shown")
        script.unlock(everything, says(*good), time=10_000, output_room=12)
    script.heading("unlock: no lock is stale at the moment 1,800")
    script.unlock(False, says(("rows", [row(1, time=0)])), time=1_800)
    script.heading("unlock: one is at 1,801")
    script.unlock(False, says(("rows", [row(1, time=0)]), ("done",)), time=1_801)


def places(script, word, run, good):
    """A job that is answered otherwise at one of its requests."""
    for place, right in enumerate(good):
        before, number = says(*good[:place]), place + 1
        for code in (2, 3, 5, 8, 10):
            script.heading(f"{word}: request {number} is refused {code}")
            run(before + say(number, ("refused", code)) + say(number + 1, ("done",)))
        other = next(one for one in OTHER_SAYS[place % 2:] if one[0] != right[0])
        script.heading(f"{word}: request {number} is answered by {other[0]}")
        run(before + say(number, other) + say(number + 1, ("done",)))
        script.heading(f"{word}: request {number} has no reply")
        run(before)
        script.heading(f"{word}: the reply to request {number} is cut")
        run(before + say(number, right)[:-1])
        script.heading(f"{word}: request {number} is answered by no frame")
        run(before + bytes(4))


def streams(script, word, run, good):
    """A job whose streams come slowly, break or take little."""
    script.heading(f"{word}: at once")
    run(says(*good))
    script.heading(f"{word}: byte by byte")
    run(says(*good), slow=True)
    script.heading(f"{word}: the connection breaks")
    run(says(*good)[:-1], broken=True)
    script.heading(f"{word}: other replies between")
    mixed = [say(number + 7, ("refused", 2)) + say(number, ("refused", 2), bytes(16)) + say(number, what)
             for number, what in enumerate(good, 1)]
    run(b"".join(mixed))
    for room in (0, 29, 60, 77):
        script.heading(f"{word}: {room} bytes are sent")
        run(says(*good), sent_room=room)
    for room in (0, 5, 1_000):
        script.heading(f"{word}: {room} bytes are shown")
        run(says(*good), output_room=room)


def codes(script, word, run, good, place):
    """Each code at one request."""
    for code in range(1, 14):
        script.heading(f"{word}: request {place + 1} is refused {code}")
        run(says(*good[:place], ("refused", code), ("done",)))


def raw_pages(kind, names):
    """Pages that don't rise, and some that do."""
    a, b, c = sorted(names)
    return [
        ("two pages", [("names", True, [a]), ("names", False, [b])]),
        ("a last page without names", [("names", True, [a, b]), ("names", False, [])]),
        ("a page with one name twice", [("names", False, [a, a])]),
        ("a page that falls", [("names", False, [b, a])]),
        ("a second page that begins with the name before", [("names", True, [a, b]), ("names", False, [b])]),
        ("a second page with a name below", [("names", True, [b]), ("names", False, [a])]),
        ("a page without names before others", [("names", True, [])]),
        ("a second page without names before others", [("names", True, [a]), ("names", True, [])]),
        ("three pages", [("names", True, [a]), ("names", True, [b]), ("names", False, [c])]),
    ]


TREE = tree_text([])
SNAPSHOT = snapshot_text("a", 5, 1, name_of(TREE))


def configs():
    """Configs, and what each is."""
    value = {"chunk_bits": 6, "chunk_max": 128, "chunk_min": 64, "id": "00" * 16, "pack_target": 1_024, "version": 1}
    yield "with a key more", dump(value | {"more": []})
    for key, others in (("version", [0, 2, 9, "1", 1.0, None, -1]), ("chunk_bits", [0, 33, "6", 6.0]),
                        ("chunk_min", [63, 129, True]), ("chunk_max", [63, 8_388_609, None]),
                        ("pack_target", [1_023, 16_777_217, -1]), ("id", ["", "00" * 15, "0G" + "00" * 15, "AB" * 16, 7])):
        for other in others:
            yield f"with {key} {dump(other).decode()}", dump(value | {key: other})
        yield f"without {key}", dump({one: value[one] for one in value if one != key})
    yield "with version 2 and nothing else", dump({"version": 2})
    for text, data in no_texts():
        yield text, data
    yield "of 65,537 bytes", config_text() + b" " * (65_537 - len(config_text()))


def no_texts():
    """Bytes that hold no value."""
    yield "empty", b""
    yield "cut", b"{"
    yield "with a byte order mark", b"\xef\xbb\xbf{}"
    yield "not UTF-8", b'{"a":"\xff"}'
    yield "with text behind it", b"{} {}"
    yield "a list", b"[]"
    yield "a number that is too large", b'{"a":1e400}'
    yield "half a character", b'{"a":"\\ud800"}'


def snapshots_texts():
    """Snapshots, and what each is."""
    value = {"host": "a", "time": 5, "token": 1, "tree": name_of(TREE).hex(), "version": 1}
    yield "with a key more", dump(value | {"more": {"version": 7}})
    yield "with spaces around it", b" \n" + dump(value) + b"\t\r"
    yield "with a key twice, of which the last counts", dump(value)[:-1] + b',"time":6}'
    for key, others in (("version", [0, 2, "1", 1.5]), ("host", ["", "h" * 256, 1]), ("time", [-1, 2**64, 5.0, "5"]),
                        ("token", [None, 2**64]), ("tree", ["", "0" * 63, "A" * 64, 0])):
        for other in others:
            yield f"with {key} {dump(other).decode()[:20]}", dump(value | {key: other})
        yield f"without {key}", dump({one: value[one] for one in value if one != key})
    yield "with the greatest numbers and a host of 255 bytes", dump(value | {"time": 2**64 - 1, "token": 2**64 - 1, "host": "h" * 255})
    yield from no_texts()


def lists(script):
    good = OPENED + [("names", False, [name_of(SNAPSHOT)]), ("bytes", SNAPSHOT), ("done",)]
    places(script, "snapshots", script.snapshots, good)
    streams(script, "snapshots", script.snapshots, good)
    script.heading("snapshots: a reply to another request between, and then it is busy")
    script.snapshots(say(1, ("token", 1)) + say(9, ("done",)) + say(2, ("refused", 3)))
    codes(script, "snapshots", script.snapshots, good, 0)
    codes(script, "snapshots", script.snapshots, good, 1)
    for text, data in configs():
        script.heading("snapshots: a config " + text)
        script.snapshots(says(*OPENED[:2], ("bytes", data), NO_NAMES, ("done",)))
    for text, data in snapshots_texts():
        script.heading("snapshots: a snapshot " + text)
        script.snapshots(says(*OPENED, ("names", False, [name_of(data)]), ("bytes", data), ("done",)))
    odd = sorted((snapshot_text(host, 5, 1, ABC) for host in ODD_HOSTS), key=name_of)
    script.heading("snapshots: hosts that leave their line")
    script.snapshots(says(*OPENED, ("names", False, [name_of(text) for text in odd]), *[("bytes", text) for text in odd], ("done",)))
    script.heading("snapshots: one of another name")
    script.snapshots(says(*OPENED, ("names", False, [ABC]), ("bytes", SNAPSHOT), ("done",)))
    texts = [snapshot_text("host " + letter, 7, 2, ABC) for letter in "xyz"]
    by_name = {name_of(text): text for text in texts}
    for text, pages in raw_pages("snapshot", by_name):
        script.heading("snapshots: " + text)
        names = [name for page in pages for name in page[2]]
        script.snapshots(says(*OPENED, *pages, *[("bytes", by_name[name]) for name in names], ("done",)))
