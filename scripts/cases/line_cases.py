"""Cases of the lines of scripts: what each is read as shows in what comes of it; and lines that are none."""

import random

from jobs import DAY
from played_cases import bytes_of, played
from plays import SORTS, prints_of

GREATEST = 2**64 - 1
BACKED = "start backup a 5\nfinish 0\nstart restore 0\nfinish 1\nreport\n"


def plays(script, heading, text, command="play", **shape):
    """A script, and what the reference says that it prints."""
    prints, fault = prints_of(command, bytes_of(text), shape.get("broken", False), shape.get("output_room"))
    played(script, command, heading, text, prints, fault, **shape)


def backups(*rows, first=0):
    """Backups of a file of its own each, by hosts at times, to their ends."""
    return "".join(f"file {client} {client:02x}\nstart backup {host} {time}\nfinish {client}\n" for client, (host, time) in enumerate(rows, first))


def restores(clients, first):
    """Restores of what these clients stored, and a report."""
    return "".join(f"start restore {client}\nfinish {place}\n" for place, client in enumerate(clients, first)) + "report\n"


def entries(script):
    """Lines of entries: a directory that isn't read as it is spelled has no parent, or stands out of order."""
    for text, lines in (
            ("directories, one below another", "dir b\ndir b/b\ndir b/b/c\nfile b/b/c/d 00\n"),
            ("in a path a dash is a name", "dir -\nfile -/- -\nfile -/x -\n"),
            ("a tab or a carriage return separates nothing", "dir a\tb\ndir a\tb/c\r\nfile a\tb/c\r/d\r\te 00\n"),
            ("letters of two bytes", "dir ä\ndir ä/ß\nfile ä/ß/é 00\n"),
            ("files without bytes and with some", "file a -\nfile b 00\nfile c 616263\n"),
            ("a file that is cut into chunks by its bytes", f"file a {random.Random(1).randbytes(3_000).hex()}\n")):
        plays(script, "entries: " + text, lines + BACKED)
    twice = "".join(f"dir a\nfile a/b {digits}\nstart backup a 1\nfinish {client}\n" for client, digits in enumerate(("fFaA00", "FFaa00", "ffaa01")))
    plays(script, "entries: digits of both cases are the same bytes", twice + "report\n")
    for line in ("dir /", "dir a//b", "dir a/", "dir /a", "file .. 00", "file a/. 00", "dir a/../b"):
        plays(script, f"entries: a path that can't be is a line, and refused at the start: {line}", f"dir a\n{line}\nstart backup a 1\nreport\n")


def hosts_and_times(script):
    """Backups by hosts at times: which ones a policy keeps shows both."""
    hosts = ("a", "a\r", "-", "old", "007", "é" * 127 + "a", "h" * 255)
    count = len(hosts)
    first = backups(*[(host, 5) for host in hosts])
    second = backups(*[(host, 5 + (-1) ** place) for place, host in enumerate(hosts)], first=count + 1)
    plays(script, "starts: hosts of all sorts, each of which keeps its last snapshot",
          first + f"start keep 1 0\nfinish {count}\n" + second + f"start keep 1 0\nfinish {2 * count + 1}\n"
          + restores([*range(count), *range(count + 1, 2 * count + 1)], 2 * count + 2))
    times = (GREATEST, GREATEST - 1, 2**63 + 9, 2**32 + 9, 0, "007", 5, 86_400, "00000000000000000000000000000000086399")
    for last, daily in ((1, 0), (2, 0), (4, 0), (0, 1), (0, 3), (7, 0), ("008", "00")):
        plays(script, f"starts: times of all sorts, of which {last} and {daily} days are kept",
              backups(*[("a", time) for time in times]) + f"start keep {last} {daily}\nfinish 9\n" + restores(range(9), 10))
    rows = backups(*[("a", time) for time in (1, 2, DAY, DAY + 1, 3 * DAY, 3 * DAY + 1)])
    for last, daily in ((2, 2**32 - 1), (2**32 - 1, 0), (0, 1), (1, 3), (3, 1)):
        plays(script, f"starts: a policy of {last} and {daily} days", rows + f"start keep {last} {daily}\nfinish 6\n" + restores(range(6), 7))
    plays(script, "starts: a policy of 0 and 0 days", rows + "start keep 0 0\n" + restores(range(6), 6))


def starts(script):
    """Each sort of client, by what the report tells of it."""
    three = backups(("a", 1), ("a", 2), ("b", 3), ("b", 4))
    jobs = ("list", "check", "prune", "upgrade", "restore 1", "forget 0", "keep 1 0")
    plays(script, "starts: one of each", three + "".join(f"start {job}\nfinish {client}\n" for client, job in enumerate(jobs, 4)) + "report\n")
    for job in jobs:
        plays(script, f"starts: {job}", three + f"start {job}\nfinish 4\n" + restores(range(4), 5))
        plays(script, f"starts: {job}, of an old client", three + f"old start {job}\nfinish 4\nstart upgrade\nfinish 5\nold start {job}\nfinish 6\nreport\n")
    plays(script, "starts: old backups before an upgrade and behind it",
          "file x 00\nold start backup a 5\nfinish 0\nstart upgrade\nfinish 1\nfile x 01\nold start backup a 6\nfinish 2\nreport\n")
    for clients in ("0", "3", "3 0 3", "1 2", "003 01"):
        plays(script, f"starts: a forget of what clients {clients} stored", three + f"start forget {clients}\nfinish 4\n" + restores(range(4), 5))


def happenings(script):
    """Lines of what happens, each of which shows in a report, or in what a client meets later."""
    many = "start list\n" * 13
    for line in ("step 0", "step 007", "step 12", "finish 12", "finish 0", "late 3", "late 12", "crash 4", "crash 10", "until 11 list", "fault 9 unapplied"):
        plays(script, f"what happens: {line}", many + line + "\nreport\n" + "".join(f"late {client}\n" for client in range(13)))
    plays(script, "what happens: messages are counted over all clients", many + "deliver 12\ndeliver 13\ndeliver 14\nreport\nlate 12\nlate 11\n")
    locked = "".join(f"file {client} {client:02x}\nstart backup a {client}\nuntil {client} put-pack\n" for client in range(6))
    ends = "".join(f"finish {client}\n" for client in range(6)) + "report\n"
    for line in ("unlock 5", "unlock 005", "unlock 6", "unlock 0", "unlock 7", f"unlock {GREATEST}", "deliver 100", f"deliver {GREATEST}"):
        plays(script, f"what happens: {line}", locked + line + "\nreport\n" + ends)
    for failure in ("applied", "unapplied", "read"):
        for word in ("ticket", "lock", "list", "put-pack", "put-index", "put-snapshot", "unlock"):
            plays(script, f"what happens: fault 1 {failure} at {word}",
                  backups(("a", 1)) + f"file x 78\nstart backup b 2\nuntil 1 {word}\nfault 1 {failure}\nreport\nfinish 1\nlate 1\nstart check\nfinish 2\nreport\n")
    for line in ("", "restart"):
        plays(script, f"what happens: what the store remembers, and {line or 'no restart'}",
              f"start list\nfinish 0\n{line}\nstart list\nuntil 1 list\n{line}\nfault 1 read\nreport\n")
    for again, lines in (("none again", ""), ("each again", "replay\n"), ("each again, twice", "replay\nreplay\n")):
        for token in (3, 5, 7):
            plays(script, f"what happens: requests so far, and {again}: token {token} is next", backups(("a", 1)) + "file x 78\nstart backup b 2\nuntil 1 put-pack\n"
                  + f"{lines}report\nfile y 79\nstart backup b 3\nuntil 2 put-pack\nunlock {token}\nfinish 1\nfinish 2\nreport\n")
        plays(script, f"what happens: requests of clients that wait for their locks, and {again}",
              f"start list\nstart prune\nstart list\nuntil 0 lock\nuntil 1 lock\n{lines}report\nlate 2\nfinish 0\nfinish 1\nfinish 2\nreport\n")
    for first in ("append-only\n", ""):
        plays(script, "what happens: a store that " + ("only appends" if first else "doesn't only append"),
              first + backups(("a", 1)) + "start forget 0\nfinish 1\nstart prune\nfinish 2\nreport\n")


def waits(script):
    """For each sort of request a client of each job that makes it waits there; then its lock is removed, others change the store, and it goes on."""
    begun = ("file x 616263\nfile y 6465\nstart backup a 1\nfinish 0\nfile x 616263\nstart backup a 2\nfinish 1\nstart forget 0\nfinish 2\n")
    between = {"nothing comes between": "", "its lock is removed": "unlock 4\n", "an upgrade comes between": "unlock 4\nstart upgrade\nfinish 4\n",
               "all is forgotten and pruned": "unlock 4\nstart forget 1\nfinish 4\nstart prune\nfinish 5\n"}
    jobs = {"restore 1": ("ticket", "lock", "config", "list", "get", "range", "unlock"), "prune": ("put-pack", "put-index", "delete-index", "delete-pack"),
            "backup a 9": ("put-pack", "put-index", "put-snapshot"), "forget 1": ("delete-snapshot",), "upgrade": ("upgrade",)}
    for job, words in jobs.items():
        for word in words:
            for text, lines in between.items():
                entry = "file z 7a\n" if job.startswith("backup") else ""
                plays(script, f"a {job.split()[0]} waits to {word}: {text}",
                      begun + f"{entry}start {job}\nuntil 3 {word}\nreport\n{lines}late 3\nfinish 3\nreport\n")
    for word in SORTS:
        plays(script, f"a list that waits to {word}, which it may never", f"start list\nuntil 0 {word}\nlate 0\nreport\n")


def asked(script):
    """What somebody asks who is no client, before a client, in the middle of its job, and after it."""
    begun = "file x 616263\nstart backup a 5\nuntil 0 put-pack\n"
    for text, lines in (
            ("a refresh", "ask refresh 1 9\nask refresh 1 3\nask refresh 001 9\n"),
            ("a refresh of a number that was never issued, of the greatest, and of none", f"ask refresh 2 9\nask refresh {GREATEST} {GREATEST}\nask refresh 0 0\n"),
            ("a refresh of a number that is fresh, and of one that is dead", "ask ticket\nask refresh 2 9\nunlock 2\nask refresh 2 9\n"),
            ("the locks", "ask locks\nask locks\n"),
            ("a lock of the client's own number", "ask lock 1 shared\nask lock 1 exclusive\n"),
            ("a shared lock beside it", "ask ticket\nask lock 2 shared\nask locks\nreport\n"),
            ("an exclusive lock beside it", "ask ticket\nask lock 2 exclusive\nreport\n"),
            ("an exclusive lock where its own is removed", "ask ticket\nunlock 1\nask lock 2 exclusive\nask refresh 1 9\nreport\n"),
            ("a lock of a number that was never issued", "ask lock 2 shared\nask lock 0 exclusive\n")):
        plays(script, f"what somebody asks in the middle of a backup: {text}",
              begun + lines + "late 0\nfinish 0\nask locks\nstart restore 0\nfinish 1\nstart prune\nfinish 2\nreport\n")
    for kind in ("shared", "exclusive"):
        plays(script, f"what somebody asks: a {kind} lock, and then clients come", f"ask ticket\nask lock 1 {kind}\n" + backups(("a", 1))
              + "start prune\nfinish 1\nreport\nask refresh 1 5\nunlock 1\nask refresh 1 6\nstart prune\nfinish 2\nreport\n")
        plays(script, f"what somebody asks: the {kind} lock of a client's own number, before it does",
              f"start list\nstep 0\nask lock 1 {kind}\nreport\nfinish 0\nlate 0\nreport\nrestart\nstart list\nfinish 1\nreport\n")
    plays(script, "what somebody asks: as many tickets as a store keeps, between a client's ticket and its lock",
          "start list\nstep 0\n" + "ask ticket\n" * 1_024 + "ask lock 2 shared\nfinish 0\nreport\n")
    locks = "".join(f"ask ticket\nask lock {token} shared\n" for token in range(1, 257))
    plays(script, "what somebody asks: as many locks as there may be, before a client's", locks + "start list\nfinish 0\nask locks\nreport\n")
    plays(script, "what somebody asks: where the store only appends", "append-only\nask ticket\nask lock 1 exclusive\nask refresh 1 1\nask locks\nreport\n")


SPACES = (" ", " report", "report ", "step  1", "step 1 ", "step\t1", "report\r", "\r", "\t", "dir  a", "file a  00", "start  list", "old  start list")
WORDS = ("stop 1", "Step 1", "REPORT", "step", "finish", "late", "crash", "deliver", "unlock", "step 1 2", "finish 1 2", "late 1 2", "crash 1 2", "deliver 0 0",
         "unlock 1 1", "report 1", "restart 1", "replay 1", "append-only", "append-only 1", "start", "start list 1", "start prune 1", "start check 1",
         "start upgrade 1", "start restore", "start restore 0 0", "start List", "old", "old start", "old report", "old list", "old old start list",
         "old start forget", "start forget", "start keep 1", "start keep 1 1 1", "start pieces a", "start pieces a 1 2", "start pieces", "start backup a", "start backup a 1 2", "until 1 put",
         "until 1 delete", "until 1 Ticket", "until 1 refresh", "until 1 locks", "until ticket", "until 1", "until 1 ticket lock", "fault 1 write", "fault 1",
         "fault 1 read read", "ask", "ask ticket 1", "ask Ticket", "ask lock", "ask lock 1", "ask lock 1 both", "ask lock shared 1", "ask lock 1 shared 1",
         "ask refresh", "ask refresh 1", "ask refresh 1 1 1", "ask locks 1", "ask unlock 1", "ask list pack", "ask config", "ask put", "dir", "dir a b", "file", "file a", "file a 00 00", "# report",
         "feed", "feed 0", "feed end", "feed 0 end 1", "feed 0 0 end", "feed 0 close 0", "feed 0 abandon 0", "feed 0 dir", "feed 0 dir a b", "feed 0 file",
         "feed 0 file a 00", "feed 0 bytes", "feed 0 bytes 61 62", "feed 0 bytes 6", "feed 0 bytes 6g", "feed 0 Dir a", "feed 0 stop", "feed 0 entry a")
NUMBERS = ("step +1", "step -1", "step 1x", "step x", "step 0x1", "step 1.0", "step 1_0", "step 18446744073709551616", "step 18446744073709551617",
           "deliver 18446744073709551616", "unlock 18446744073709551616", "unlock +1", "unlock -1", "start keep 4294967296 0", "start keep 0 4294967296",
           "start keep 4294967297 1", "start keep +1 1", "start keep 1 -1", "start forget 0 x", "start forget 0 +0", "start forget x", "start restore +0",
           "start backup a +1", "start backup a 18446744073709551616", "start backup a -", "step \u0661", "until x ticket", "fault +1 read", "ask lock +1 shared",
           "ask lock 18446744073709551616 shared", "ask refresh 1 18446744073709551616", "ask refresh 18446744073709551616 1", "ask refresh -1 1", "ask refresh 1 x",
           "feed +1 end", "feed -1 end", "feed x end", "feed 18446744073709551616 end", "start pieces a +1", "start pieces a 18446744073709551616")
# Each of the characters from \udc80 to \udcff stands for one byte that is no text.
BYTES = ("file a 6", "file a 6g", "file a --", "file a 0x61", "file a -1", "file a 616", "file a é0", "dir \udcff", "dir \udcc3", "dir \udced\udca0\udc80",
         "dir \udcc0\udcaf", "report\0", "\ufeffreport", "\0")
HOSTS = ("start backup " + "h" * 256 + " 1", "start backup " + "é" * 128 + " 1", "start backup " + "é" * 127 + "aa 1",
         "start pieces " + "h" * 256 + " 1")
STRANGERS = ("step 2", f"step {GREATEST}", "finish 2", "until 2 list", "late 2", "crash 2", "fault 2 read", "feed 2 end", f"feed {GREATEST} close", "start restore 1", "start restore 2",
             "start forget 1", "start forget 0 2", "start forget 0 1", "old start restore 1")


def refused(script):
    """Lines that aren't understood, behind a client that stored a snapshot and one that lists; what they print stands."""
    before = backups(("a", 1)) + "start list\nreport\n"
    for what, lines in (("spaces in other places", SPACES), ("words that are unknown, too few or too many", WORDS), ("numbers that are none", NUMBERS),
                        ("bytes that are none", BYTES), ("hosts that are too long", HOSTS), ("clients that aren't there, or stored nothing", STRANGERS)):
        for line in lines:
            plays(script, f"{what}: {ascii(line)[1:-1][:60]}", f"{before}{line}\nreport\n")
    for line in ("append-only 1", "append-only ", "Append-only", "appendonly"):
        plays(script, "a first line that isn't understood: " + line, f"{line}\nreport\n")


def streams(script):
    """Scripts that come in pieces, whose lines end anywhere in them. What earlier lines print stands."""
    text = "file a " + "61" * 2_100 + "\n\nfile b " + "62" * 2_100 + "\n\n\n" + BACKED + "late 0"
    for end in ("", "\n", "\n\n", "\n\nreport", "\r\n", "\n\r\n", "\nrepor"):
        plays(script, f"a script of more than one piece, which ends with {end!r}", text + end)
    for end in ("", "\n\nreport", "\r\n"):
        plays(script, f"the same byte by byte, which ends with {end!r}", text + end, slow=True)
        plays(script, f"the same, where its input breaks behind {end!r}", text + end, broken=True)
    shown = len(prints_of("play", text.encode())[0])
    for room in (shown - 1, shown):
        plays(script, f"a script of more than one piece, and an output that takes {room} bytes", text + "\n", output_room=room)


def events(script):
    """Messages one by one: a request is answered, its reply comes, comes again, or comes to a client that stopped."""
    begun = "file f 736f6d65206279746573\nstart backup a 5\n"
    for text, lines in (
            ("a ticket is asked for, and given", "deliver 0\ndeliver 1\nlate 0\n"),
            ("a reply that comes again changes nothing", "deliver 0\ndeliver 1\ndeliver 1\ndeliver 1\nlate 0\n"),
            ("no message has this number", "deliver 1\ndeliver 7\nlate 0\n"),
            ("a request that comes again is answered again", "deliver 0\ndeliver 0\ndeliver 2\ndeliver 1\nlate 0\nunlock 1\nfinish 0\n"),
            ("a lock is granted, whose reply is late", "deliver 0\ndeliver 1\ndeliver 2\nreport\ndeliver 2\ndeliver 4\nlate 0\n"),
            ("the writing of a lock fails, and its reply says so", "step 0\nfault 0 unapplied\n"),
            ("the writing of a lock fails once it is made", "step 0\nfault 0 applied\n"),
            ("the writing of a lock fails, and the lock is asked for before by the same request", "step 0\ndeliver 2\nfault 0 unapplied\n"),
            ("a client stops, and what is said to it comes later", "deliver 0\ndeliver 1\ndeliver 2\ncrash 0\ndeliver 3\nstep 0\ncrash 0\nlate 0\n"),
            ("its lock is removed then, and the store opened anew", "step 0\nstep 0\ncrash 0\nreport\nunlock 1\nreport\nrestart\nreport\nlate 0\n"),
            ("a client stops that ended, and is told as it ended", "finish 0\nreport\ncrash 0\nlate 0\n"),
            ("a client that isn't begun is none", "start keep 0 0\ndir ..\nstart backup a 5\nstart backup a 5\nstep 1\nreport\nfinish 1\n")):
        plays(script, "messages: " + text, begun + lines + "report\n")
        plays(script, f"messages: {text}; and then it goes on", begun + lines + "finish 0\nstart list\nfinish 1\nreport\n")


def by_hand(script):
    """A list whose messages are all delivered by their numbers, in each order of two of them."""
    for first in range(10):
        for second in (first, first + 1, 9 - first):
            order = [at for at in range(10) if at not in (first, second)]
            order.insert(first, second), order.insert(second, first)
            plays(script, f"messages: those of a list, but {second} where {first} was", "start list\n" + "".join(f"deliver {at}\n" for at in order) + "report\nlate 0\n")


def jobs(script):
    """Clients of all jobs, one after another, to their ends."""
    plays(script, "all jobs",
          "file f 736f6d65206279746573\nstart backup a 5\nfinish 0\nstart restore 0\nfinish 1\nstart list\nfinish 2\nstart check\nfinish 3\n"
          "file g 736f6d65206279746573\nstart backup a 5\nfinish 4\nstart keep 1 0\nfinish 5\nstart prune\nfinish 6\nstart upgrade\nfinish 7\nreport\n")


ALL = [entries, hosts_and_times, starts, happenings, waits, asked, refused, streams, events, by_hand, jobs]
