"""The words of each command, its help, and what `frames`, `play` and `loop` tell of their input."""
import re

from program import TICKET, Server, frame, has_status, lock, matches, refused, token, told
from trying import holds, same, trial
from yards import Yard, filled, in_folder, in_store

COMMANDS = "frames init serve backup snapshots restore forget prune check upgrade locks refresh unlock play loop".split()
NAME = "0" * 64
# Nobody is asked there: the words are refused before.
ANY = "127.0.0.1:1"


@trial
def each_command_has_its_help():
    """With an example, and with what its exit statuses mean."""
    for word in COMMANDS:
        got = told(word, "--help")
        holds(got.startswith("0|") and got.endswith("|"), got)
        for text in ("Example:", f"vault {word}", "Exit status:", "Usage:", "\n  0  ", "\n  1  ", "\n  2  "):
            holds(text in got, f"{word} --help has no {text!r}: {got}")
        same(told(word, "-h"), got, f"{word} -h")


@trial
def the_help_names_each_command():
    got = told("--help")
    same(sorted(re.findall(r"^  ([a-z]+)  ", got, re.M)), sorted(["help", *COMMANDS]) if "\n  help " in got else sorted(COMMANDS))
    matches(told("--version"), r"0\|vault \d+\.\d+\.\d+\n\|")


@trial
def words_that_make_no_command():
    """Status 2, a text on standard error, and nothing on standard output."""
    for words in ([], ["away"], ["backups"], ["init"], ["serve", "x"], ["backup", ANY, "h"], ["restore", ANY, NAME], ["refresh", ANY], ["snapshots"],
                  ["prune", ANY, "more"], ["check", ANY, "--all"], ["unlock", ANY, "--remove-all", "yes"], ["locks", ANY, "--retry", "1"],
                  ["frames", "x"], ["play", "x"], ["forget", ANY, "--keep-last"], ["forget", ANY, "--keep-weekly", "1"]):
        matches(told(*words), r"2\|\|.+", words)


@trial
def words_out_of_bounds():
    """`bad argument`, or a text of the parser's own where a number is none; before anything is opened."""
    for words in (["backup", ANY, "", "x"], ["backup", ANY, "h" * 256, "x"], ["backup", ANY, "ä" * 128, "x"], ["restore", ANY, "0" * 63, "x"],
                  ["restore", ANY, "A" * 64, "x"], ["restore", ANY, "", "x"], ["forget", ANY, "0"], ["forget", ANY, NAME, NAME[:-1] + "G"],
                  ["forget", ANY, "--keep-last", "1", "--host", ""], ["forget", ANY, "--keep-last", "1", "--dry-run", "--host", "h" * 256],
                  ["init", ""], ["serve", "", ANY], ["backup", ANY, "h", ""], ["restore", ANY, NAME, ""]):
        same(told(*words), "2||bad argument\n", words)
    for words in (["refresh", ANY, "one"], ["refresh", ANY, "-1"], ["refresh", ANY, "18446744073709551616"], ["forget", ANY, "--keep-last", "4294967296"],
                  ["forget", ANY, "--keep-daily", "x"], ["backup", ANY, "h", "x", "--retry", "no"], ["serve", "x", ANY, "--connections", "0"]):
        matches(told(*words), r"2\|\|.+", words)
    same(told("forget", ANY, "--keep-last", 1, NAME), "2||names and a policy exclude each other\n")
    same(told("forget", ANY, NAME, "--keep-daily", 1), "2||names and a policy exclude each other\n")
    same(told("forget", ANY, NAME, "--host", "h", "--dry-run"), "2||names and a policy exclude each other\n")


@in_folder
def addresses_that_are_none(yard):
    """`bad argument`, before anything is opened: no folder is made, and none is missed."""
    away = yard.at("away")
    for address in ("nowhere", "", ":", ":7070", "127.0.0.1", "127.0.0.1:", "127.0.0.1:http", "127.0.0.1:65536", "127.0.0.1:-1", "127.0.0.1:7070/", "::", "[::1]"):
        for words in (["serve", away, address], ["backup", address, "h", away], ["snapshots", address], ["restore", address, NAME, away], ["forget", address, NAME],
                      ["prune", address], ["check", address, "--retry", 3], ["upgrade", address], ["locks", address], ["refresh", address, 1], ["unlock", address]):
            same(told(*words), "2||bad argument\n", words)
    yard.holds("", 0)
    for address in (ANY, "localhost:1", "[::1]:1", "::1:1", "127.0.0.1:00001", "a.name.that.is.none.invalid:65535"):
        same(told("snapshots", address), "1||not reached\n", address)


@in_store
def words_at_their_bounds(yard):
    root = filled(yard.top / "from", {"x": b"abc"})
    with Server(yard.root, connections=20) as server:
        for host in ("h" * 255, "ä" * 127 + "h", " ", "-", "a b"):
            words = ["backup", server.address, "--", host, root] if host == "-" else ["backup", server.address, host, root]
            has_status(told(*words), 0, words)
        hosts = [line.split(" ", 2)[2] for line in told("snapshots", server.address).split("|")[1].splitlines()]
        same(sorted(hosts), sorted(("h" * 255, "ä" * 127 + "h", " ", "-", "a b")))
        same(told("forget", server.address, "--keep-last", 4294967295), "0||")
        same(told("forget", server.address, "--keep-last", 0, NAME), "0||")
        same(told("forget", server.address, "--keep-last", 0, "--keep-daily", 0), "1||no policy\n")
        same(told("forget", server.address), "1||no policy\n")
        for host in ("h" * 255, "ä" * 127 + "h", "nobody"):
            same(told("forget", server.address, "--keep-last", 1, "--host", host), "0||")
        same(told("refresh", server.address, 18446744073709551615), "1||refused 2\n")
        same(told("backup", server.address, "h", root, "--retry", 18446744073709551615)[:9], "0|stored ")


@trial
def frames_answers_each_request():
    same(told("frames", stdin=TICKET + "\n" + TICKET[:10] + "\n\n" + TICKET[10:] + "\n"), f"0|{token(1)}\n{token(2)}\n|")
    same(told("frames", stdin=""), "0||")
    same(told("frames", stdin=frame(11).hex()), f"0|{refused(5)}\n|")
    same(told("frames", stdin=frame(1).hex().upper()), f"0|{token(1)}\n|")


@trial
def frames_tells_what_is_none():
    """What was answered before stands on standard output."""
    first = TICKET + "\n"
    for given, fault in (("xy", "line 2: not hexadecimal"), ("0", "line 2: not hexadecimal"), (" 00", "line 2: not hexadecimal"), ("\n00\r", "line 3: not hexadecimal"),
                         ("00000018", "malformed: length"), ("ffffffff", "malformed: length"), (frame(13).hex(), "malformed: tag"), (frame(129).hex(), "malformed: tag"),
                         (frame(1, b"\0").hex(), "malformed: fields"), (frame(6, b"\3\0").hex(), "malformed: fields"), (frame(12).hex(), "malformed: fields"), ("0000", "end of input inside a frame"),
                         (TICKET[:-2], "end of input inside a frame")):
        same(told("frames", stdin=first + given + "\n"), f"1|{token(1)}\n|{fault}\n", given)


SCRIPT = "file x 616263\nstart backup a 1\nfinish 0\nstart forget 0\nfinish 1\nstart prune\nfinish 2\nreport\n"
REPORT = "client 0 backup stored 2 129\nclient 1 forget forgotten 1\nclient 2 prune pruned 1 0\nstore packs 0 indexes 0 snapshots 0 live 0\n"


@trial
def play_and_loop_print_the_same():
    for command in ("play", "loop"):
        same(told(command, stdin=SCRIPT), f"0|{REPORT}|", command)
        same(told(command, stdin=SCRIPT.rstrip("\n")), f"0|{REPORT}|", command)
        same(told(command, stdin=""), "0||", command)


@trial
def play_and_loop_tell_a_line_that_is_none():
    """What the lines before it print stands."""
    for command in ("play", "loop"):
        for line in ("reports", "report ", " report", "start backup a", "file x 6", "file x", "finish 3", "start restore 1", "start backup a -1", "start forget", "unlock"):
            got = told(command, stdin="start list\nfinish 0\nreport\n\n" + line + "\nreport\n")
            same(got, "1|client 0 list listed 0\nstore packs 0 indexes 0 snapshots 0 live 0\n|line 5: not understood\n", f"{command}: {line!r}")
    for line in ("crash 0", "step 0", "late 0", "unlock 1", "restart"):
        same(told("loop", stdin="start list\n" + line + "\n"), "1||line 2: not understood\n", line)
    same(told("play", stdin="file a/../b 61\nstart backup a 1\nfile x 61\nfile x 61\nstart backup a 1\nreport\n"),
         "0|start refused 1\nstart refused 2\nstore packs 0 indexes 0 snapshots 0 live 0\n|")


@trial
def loop_carries_no_large_frame():
    entries = "".join(f"file {number:0250} -\n" for number in range(300))
    script = entries + "start backup a 1\nfinish 0\nreport\n"
    matches(told("play", stdin=script), r"0\|client 0 backup stored 1 \d+\nstore packs 1 .*\n\|")
    same(told("loop", stdin=script), "1||frame too large for loop\n")


@trial
def results_that_cannot_be_written():
    """`write failed` of each command whose output is full; what it did stands."""
    with Yard(is_store=True) as yard, open("/dev/full", "w") as full:
        root = filled(yard.top / "from", {"x": b"abc"})
        with Server(yard.root, connections=99) as server:
            same(told("backup", server.address, "h", root, stdout=full), "1||write failed\n")
            name = told("snapshots", server.address).split("|")[1].split()[0]
            for words in (["snapshots", server.address], ["restore", server.address, name, yard.top / "to"], ["check", server.address],
                          ["prune", server.address], ["forget", server.address, name]):
                same(told(*words, stdout=full), "1||write failed\n", words)
            same(told("snapshots", server.address), "0||")
            value = lock(server)
            for words in (["locks", server.address], ["refresh", server.address, value], ["unlock", server.address, "--remove-all"]):
                same(told(*words, stdout=full), "1||write failed\n", words)
            same(told("locks", server.address), "0||")
        for command, given in (("frames", TICKET), ("play", "report\n"), ("loop", "report\n")):
            same(told(command, stdin=given, stdout=full), "1||write failed\n", command)
