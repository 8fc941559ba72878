"""Cases of the words of `vault` that need no folder and no server, and of streams of frames."""

from commands import INSTANCE
from frames import Message
from naming import name_of

A, E = name_of(b"abc"), name_of(b"")
UPPER = A.hex().upper()
ADDRESS = "127.0.0.1:0"  # of which nobody takes a connection


def frame(what, sequence=1, instance=INSTANCE):
    return Message(instance, sequence, what).frame().hex()


def asks(*whats):
    return [frame(what, sequence) for sequence, what in enumerate(whats, 1)]


def bad_arguments(script):
    """Words that clap takes and the program doesn't."""
    for words in ("init x --min 63", "init x --max 63", "init x --min 129 --max 128", "init x --max 8388609", "init x --bits 0",
                  "init x --bits 33", "init x --target 1023", "init x --target 16777217", "init x --format 0", "init x --format 3", "serve x ADDR --connections 0",
                  "backup ADDR  p", "backup ADDR " + "h" * 256 + " p", "backup ADDR " + "é" * 128 + " p",
                  "restore ADDR 12 d", "restore ADDR " + UPPER + " d", "restore ADDR " + A.hex() + "0 d", "restore ADDR " + "g" * 64 + " d",
                  "forget ADDR --keep-last 1 --host " + "h" * 256, "forget ADDR --host " + "é" * 128 + " --dry-run",
                  "forget ADDR 12", "forget ADDR --dry-run 12", "forget ADDR " + UPPER, "forget ADDR " + A.hex() + " " + "g" * 64, "forget ADDR " + A.hex() + "0 " + A.hex()):
        script.heading("words that make no command")
        script.ended("vault " + words.replace("ADDR", ADDRESS), 2, "", "bad argument\n")


def bad_addresses(script):
    """Addresses that are none: texts that the socket's call doesn't take, whoever is to be asked there."""
    for address in ("127.0.0.1", "nowhere", "", ":", ":0", "127.0.0.1:", "127.0.0.1:x", "127.0.0.1:-1", "127.0.0.1:0x1", "127.0.0.1:65536",
                    "127.0.0.1:18446744073709551616", "127.0.0.1:++1", "127.0.0.1:\u0661", "[::1]", "[::1]:", "::", "127.0.0.1;1"):
        script.heading("an address that is none")
        script.ended("vault locks " + address, 2, "", "bad argument\n")
    for words in ("serve x nowhere", "locks nowhere", "snapshots nowhere", "refresh nowhere 1", "unlock nowhere --remove-all", "backup nowhere h p --retry 1",
                  "restore nowhere " + A.hex() + " d", "prune nowhere", "check nowhere --retry 1", "forget nowhere", "forget nowhere " + A.hex(),
                  "forget nowhere --keep-last 1 --dry-run", "upgrade nowhere"):
        script.heading("an address that is none, of each command")
        script.ended("vault " + words, 2, "", "bad argument\n")


def both(script):
    """Names and a policy."""
    for words in ("--keep-last 1 " + A.hex(), A.hex() + " --keep-daily 1", f"--keep-last 0 --keep-daily 4294967295 {A.hex()} {E.hex()}",
                  "--host a " + A.hex(), "--dry-run --keep-last 1 " + A.hex()):
        script.heading("snapshots to be forgotten by their names and by a policy")
        script.ended(f"vault forget {ADDRESS} " + words, 2, "", "names and a policy exclude each other\n")


def claps(script):
    """Words of which clap tells."""
    digits = "invalid digit found in string"
    missing = "error: the following required arguments were not provided:"
    for words, fault in (
            ("vault", "error: 'vault' requires a subcommand but one was not provided"),
            ("vault nothing", "error: unrecognized subcommand 'nothing'"),
            ("vault frames more", "error: unexpected argument 'more' found"),
            ("vault frames --all", "error: unexpected argument '--all' found"),
            ("vault init", missing), ("vault serve x", missing), ("vault backup x h", missing), ("vault restore x", missing),
            ("vault refresh x", missing), ("vault snapshots", missing), ("vault forget", missing), ("vault prune", missing), ("vault upgrade", missing),
            ("vault locks", missing), ("vault unlock", missing),
            ("vault init x --max -1", "error: unexpected argument '-1' found"),
            ("vault init x --max", "error: a value is required for '--max <N>' but none was supplied"),
            ("vault init x --max y", f"error: invalid value 'y' for '--max <N>': {digits}"),
            ("vault init x --min 1 --min 2", "error: the argument '--min <N>' cannot be used multiple times"),
            ("vault forget x --keep-last", "error: a value is required for '--keep-last <N>' but none was supplied"),
            ("vault forget x --keep-last y", f"error: invalid value 'y' for '--keep-last <N>': {digits}"),
            ("vault forget x --keep-daily 4294967296", "error: invalid value '4294967296' for '--keep-daily <N>': 4294967296 is not in 0..=4294967295"),
            ("vault forget x --keep-daily 1 --keep-daily 1", "error: the argument '--keep-daily <N>' cannot be used multiple times"),
            ("vault forget x --keep-weekly 1", "error: unexpected argument '--keep-weekly' found"),
            ("vault forget x --host", "error: a value is required for '--host <HOST>' but none was supplied"),
            ("vault forget x --host a --host b", "error: the argument '--host <HOST>' cannot be used multiple times"),
            ("vault forget x --dry-run --dry-run", "error: the argument '--dry-run' cannot be used multiple times"),
            ("vault refresh x y", f"error: invalid value 'y' for '<TOKEN>': {digits}"),
            ("vault refresh x 18446744073709551616",
             "error: invalid value '18446744073709551616' for '<TOKEN>': number too large to fit in target type"),
            ("vault serve x y --connections z", f"error: invalid value 'z' for '--connections <N>': {digits}"),
            ("vault locks x y", "error: unexpected argument 'y' found"),
            ("vault snapshots x y", "error: unexpected argument 'y' found"),
            ("vault prune x y", "error: unexpected argument 'y' found"), ("vault upgrade x y", "error: unexpected argument 'y' found"),
            ("vault check x y", "error: unexpected argument 'y' found"),
            ("vault backup x h p --retry", "error: a value is required for '--retry <N>' but none was supplied"),
            ("vault prune x --retry y", f"error: invalid value 'y' for '--retry <N>': {digits}"),
            ("vault check x --retry 18446744073709551616",
             "error: invalid value '18446744073709551616' for '--retry <N>': number too large to fit in target type"),
            ("vault init x --format y", f"error: invalid value 'y' for '--format <N>': {digits}"),
            ("vault locks x --retry 1", "error: unexpected argument '--retry' found"),
            ("vault unlock x --all", "error: unexpected argument '--all' found")):
        script.heading("words that clap refuses")
        script.clap(words, 2, faults=fault)
    script.heading("the version, and the program's help")
    script.clap("vault --version", 0, "vault 0.1.0")
    script.clap("vault --help", 0, "A shared, deduplicating backup repository")


def unreached(script):
    """Addresses at which nobody listens, in each form that a port may have."""
    for words in ("locks ADDR", "snapshots ADDR", "refresh ADDR 1", "refresh ADDR 18446744073709551615",
                  "unlock ADDR", "unlock ADDR --remove-all", "backup ADDR " + "h" * 255 + " p", "backup ADDR h p",
                  "restore ADDR " + A.hex() + " d", "prune ADDR", "check ADDR", "forget ADDR", "forget ADDR --keep-last 1", "forget ADDR --keep-daily 4294967295",
                  "forget ADDR " + A.hex() + " " + A.hex(), f"forget ADDR {A.hex()} --keep-last 0 {E.hex()} --keep-daily 0", "locks 127.0.0.1:0", "locks 127.0.0.1:+0", "locks 127.0.0.1:00000", "locks [::1]:0", "locks ::1:0",
                  "backup ADDR h p --retry 0", "snapshots ADDR --retry 1", "restore ADDR " + A.hex() + " d --retry 2", "forget ADDR --retry 3",
                  "prune ADDR --retry 4", "check ADDR --retry 5", "upgrade ADDR", "upgrade ADDR --retry 1"):
        script.heading("an address that can't be connected to")
        script.ended("vault " + words.replace("ADDR", ADDRESS), 1, "", "not reached\n")


def worked(script):
    """Requests and replies whose bytes are known, each from an empty store."""
    a = A.hex()
    one = "01" * 16
    script.heading("a ticket, a lock, a put and a get")
    lines = ["00000019" + "01" + one + "0000000000000001",
             "0000002c" + "02" + one + "0000000000000002" + "0000000000000001" + "00" + "0000000000000005" + "0161",
             "00000045" + "09" + one + "0000000000000003" + "0000000000000001" + "02" + a + "616263",
             "0000003a" + "07" + one + "0000000000000004" + "02" + a]
    script.ended("vault frames", 0, "00000021" + "81" + one + "0000000000000001" + "0000000000000001\n"
                 + "00000019" + "82" + one + "0000000000000002\n" + "00000019" + "82" + one + "0000000000000003\n"
                 + "0000001c" + "84" + one + "0000000000000004" + "616263\n", lines=lines)
    for text, given, said in SPELLED:
        script.heading(text)
        script.ended("vault frames", 0, "".join(line + "\n" for line in asks(*said)), lines=asks(*given))


def lock(token, exclusive=False):
    return ("lock", token, exclusive, 5, "a")


def codes(*numbers):
    return [("done",) if number == 0 else ("refused", number) for number in numbers]


SPELLED = [
    ("three tickets and their locks", [("ticket",)] * 3 + [lock(1), lock(2), lock(3, True), lock(1), ("unlock", 1), lock(1), ("locks",)],
     [("token", 1), ("token", 2), ("token", 3)] + codes(0, 0, 3, 0, 0, 2) + [("rows", [(2, False, 5, "a")])]),
    ("a put under a dead token", [("ticket",), lock(1), ("unlock", 1), ("put", 1, "pack", A, b"abc"), ("get", "pack", A),
                                  ("unlock", 9)] + [("ticket",)] * 8,
     [("token", 1)] + codes(0, 0, 2, 5, 0) + [("token", token) for token in range(2, 10)]),
    ("puts, lists, ranges and refusals", [
        ("ticket",), lock(1), ("put", 1, "pack", E, b"abc"), ("put", 1, "pack", A, b"abc"),
        ("put", 1, "pack", A, b"abc"), ("list", "pack", None), ("delete", 1, "pack", A), lock(1, True), ("range", A, 0, 0),
        ("range", A, 2, 2), ("range", A, 1, 2), ("range", E, 0, 1), ("config",), ("refresh", 1, 9), ("refresh", 2, 9)],
     [("token", 1)] + codes(0, 6, 0, 0) + [("names", False, [A])] + codes(4, 9, 1, 8) + [("bytes", b"bc")] + codes(5, 5, 0, 2)),
    ("257 tickets and their shared locks", [("ticket",)] * 257 + [lock(token) for token in range(1, 258)],
     [("token", token) for token in range(1, 258)] + codes(*[0] * 256, 12)),
    ("1,025 tickets, of which the first is dead", [("ticket",)] * 1_025 + [lock(1), lock(2)],
     [("token", token) for token in range(1, 1_026)] + codes(2, 0)),
]


def bad_streams(script):
    """Streams that end badly, each after a ticket and alone."""
    head = "01" * 16 + "0000000000000001"
    ticket = frame(("ticket",))
    bodies = [("a tag of a reply", "81" + head), ("tag 0", "00" + head), ("tag 13", "0d" + head), ("tag 14", "0e" + head),
              ("a ticket with a field", "01" + head + "00"), ("a lock without a host", "02" + head + "00" * 17),
              ("a lock with a host of 0 bytes", "02" + head + "00" * 17 + "00"), ("a lock with a host that is cut", "02" + head + "00" * 17 + "0261"),
              ("a lock with a byte more", "02" + head + "00" * 17 + "016100"), ("a lock with a host that is no text", "02" + head + "00" * 17 + "01ff"),
              ("a lock that is neither shared nor exclusive", "02" + head + "00" * 8 + "02" + "00" * 8 + "0161"),
              ("a refresh that is cut", "03" + head + "00" * 15), ("an unlock with a byte more", "04" + head + "00" * 9),
              ("locks with a field", "05" + head + "00"), ("a list of kind 3", "06" + head + "0300"), ("a list with given 2", "06" + head + "0002"),
              ("a list with a name that isn't given", "06" + head + "0000" + "00" * 32), ("a list whose name is cut", "06" + head + "0001" + "00" * 31),
              ("a get of kind 3", "07" + head + "03" + "00" * 32), ("a get with a byte more", "07" + head + "00" * 34),
              ("a range that is cut", "08" + head + "00" * 39), ("a put of kind 255", "09" + head + "00" * 8 + "ff" + "00" * 32),
              ("a put that is cut", "09" + head + "00" * 40), ("a delete with bytes", "0a" + head + "00" * 42), ("a config with a field", "0b" + head + "00"),
              ("an upgrade that is cut", "0c" + head + "00" * 7), ("an upgrade with a byte more", "0c" + head + "00" * 9)]
    for text, body in bodies:
        script.heading("frames: " + text)
        data = f"{len(body) // 2:08x}" + body
        script.frames([data])
        script.frames([ticket, data, ticket])
    for text, lines in (("a length below the least", ["00000018"]), ("length 0", ["00000000"]), ("a length above the greatest", ["01900001"]),
                        ("the greatest length, and no more", ["01900000"]), ("the end inside a length", ["000000"]),
                        ("the end inside a frame", [ticket[:-2]]), ("an odd digit", ["000"]), ("no digit", ["", "", "0g"]), ("a space", ["00 "]),
                        ("digits of both cases", ["0000001901ABABABABabababABABABABABABABABAB0000000000000001"]),
                        ("a frame over empty lines", ["", ticket[:34], "", ticket[34:]]), ("two frames on a line", [ticket + ticket]),
                        ("a bad length before bad digits", ["00000018", "xx"]), ("bad digits behind a frame on its line", [ticket + "xx"]),
                        ("bad digits on the next line", [ticket, "xx"]), ("a bad length behind a frame", [ticket + "00000018", "xx"]),
                        ("the tag is told when the body is there", ["000000190e", "xx"]), ("nothing", []), ("empty lines", ["", ""])):
        script.heading("frames: " + text)
        script.frames(lines)
        script.frames([ticket] + lines)
    for text, typed in (("a last line without its end", ticket.encode()), ("a carriage return", ticket.encode() + b"\r\n"),
                        ("a tab", b"\t\n"), ("a byte that is no text", b"\xff\n"), ("a half line", b"00000")):
        script.heading("frames: " + text)
        script.frames([], typed)
    for text, shape in (("the input breaks", {"broken": True}), ("the input breaks, byte by byte", {"broken": True, "slow": True}),
                        ("byte by byte", {"slow": True}), *[(f"{room} bytes are taken", {"output_room": room}) for room in (0, 50, 74, 75, 80)]):
        script.heading("frames: " + text)
        script.frames([ticket, ticket], **shape)
        script.frames([ticket], b"00", **shape)


ALL = [bad_arguments, bad_addresses, both, claps, unreached, worked, bad_streams]
