"""Cases of scripts that are played: the worked ones, whose values were made by hand, and those of another program.

played.json has the scripts of that program with what it prints: it was written from the rules of scripts alone, and knows
nothing of the reference beside it.
"""
import json
from pathlib import Path

PLAYED = json.loads(Path(__file__).with_name("played.json").read_text(encoding="utf-8"))

RESTORED = "start backup a 5\nfinish 0\nstart restore 0\nfinish 1\nreport\n"
TWO_BACKUPS = ("file x 616263\nfile y 6465\nstart backup a 1\nfinish 0\nfile x 616263\nstart backup a 2\nfinish 1\n"
               "start forget 0\nfinish 2\nstart prune\n")
TOLD = "client 0 backup stored 3 246\nclient 1 backup stored 1 126\nclient 2 forget forgotten 1\n"
CHECKED = "until 3 delete-index\nstep 3\nfault 3 {}\nfinish 3\nstart check\nfinish 4\nreport\n"


def stored(blobs, entries):
    return f"client 0 backup stored {blobs}\nclient 1 restore complete {entries}\nstore packs 1 indexes 1 snapshots 1 live 0\n"


# What is worked out by hand: those that `vault loop` may have, and the others.
CARRIED = [
    ("an empty backup", RESTORED, stored("1 12", 0)),
    ("an empty file beside an empty directory", "file a -\ndir b\n" + RESTORED, stored("2 175", 2)),
    ("a file whose bytes are its sibling's tree", "dir d\nfile f 7b226e6f646573223a5b5d7d\n" + RESTORED, stored("3 254", 2)),
    ("two hosts with equal files",
     "file x 616263\nstart backup a 1\nfinish 0\nfile x 616263\nstart backup b 1\nfinish 1\nreport\n",
     "client 0 backup stored 2 129\nclient 1 backup stored 0 0\nstore packs 1 indexes 1 snapshots 2 live 0\n"),
]
UPGRADED = ("a snapshot comes late that an old backup made before an upgrade; new clients restore what is stored before and behind it",
            "file x 616263\nold start backup a 1\nfinish 0\nfile x 616263\nold start backup b 1\nuntil 1 put-snapshot\nstart upgrade\n"
            "finish 2\nunlock 2\nstart upgrade\nfinish 3\nfile x 616263\nstart backup c 2\nfinish 4\nlate 1\nfinish 1\n"
            "old start restore 4\nfinish 5\nstart restore 0\nfinish 6\nstart restore 4\nfinish 7\nreport\n",
            "late 1 refused 2\nclient 0 backup stored 2 129\nclient 1 backup fenced\nclient 2 upgrade busy\nclient 3 upgrade upgraded\n"
            "client 4 backup stored 0 0\nclient 5 restore version\nclient 6 restore complete 1\nclient 7 restore complete 1\n"
            "store packs 1 indexes 1 snapshots 2 live 0\n")
WORKED = [
    CARRIED[3],
    ("a prune crashes after its new pack, and the next one makes that pack again",
     TWO_BACKUPS + "until 3 put-index\ncrash 3\nunlock 4\nstart prune\nfinish 4\nstart restore 1\nfinish 5\nreport\n",
     TOLD + "client 3 prune crashed\nclient 4 prune pruned 1 3\nclient 5 restore complete 1\n"
     "store packs 2 indexes 1 snapshots 1 live 0\n"),
    ("a delete of a fenced prune comes late, after a backup made that pack again",
     "file x 616263\nstart backup a 1\nfinish 0\nstart forget 0\nfinish 1\nstart prune\nuntil 2 delete-pack\nunlock 3\n"
     "file x 616263\nstart backup a 2\nfinish 3\nlate 2\nstart restore 3\nfinish 4\nreport\n",
     "late 2 refused 2\nclient 0 backup stored 2 129\nclient 1 forget forgotten 1\nclient 2 prune running\n"
     "client 3 backup stored 2 129\nclient 4 restore complete 1\nstore packs 1 indexes 1 snapshots 1 live 0\n"),
    ("the snapshot of a restore whose lock was removed is forgotten and pruned",
     "file x 616263\nstart backup a 1\nfinish 0\nstart restore 0\nuntil 1 range\nunlock 2\nstart forget 0\nfinish 2\n"
     "start prune\nfinish 3\nfinish 1\nreport\n",
     "client 0 backup stored 2 129\nclient 1 restore missing pack\nclient 2 forget forgotten 1\nclient 3 prune pruned 1 0\n"
     "store packs 0 indexes 0 snapshots 0 live 0\n"),
    ("the device fails after it made a delete", TWO_BACKUPS + CHECKED.format("applied"),
     TOLD + "client 3 prune refused 10\nclient 4 check clean 1 1 3 2\nstore packs 3 indexes 1 snapshots 1 live 0\n"),
    ("the device fails before it makes a delete", TWO_BACKUPS + CHECKED.format("unapplied"),
     TOLD + "client 3 prune refused 10\nclient 4 check clean 1 2 3 2\nstore packs 3 indexes 2 snapshots 1 live 0\n"),
    ("a backup that is fed: an item before it wants any, a name out of order, and its end",
     "start pieces a 5\nfeed 0 end\nfinish 0\nfeed 0 file x\nfeed 0 bytes 61\nfeed 0 bytes 6263\nfeed 0 close\nfeed 0 file a\n"
     "feed 0 end\nfinish 0\nstart restore 0\nfinish 1\nreport\n",
     "feed 0 refused 6\nfeed 0 refused 2\nclient 0 backup stored 2 129\nclient 1 restore complete 1\n"
     "store packs 1 indexes 1 snapshots 1 live 0\n"),
]
REFUSED = [
    ("a line that starts no client, after `old`", "old report\n", "", 1),
    ("`old` alone", "start list\nold\n", "", 2),
    ("`old` twice", "old old start list\n", "", 1),
    ("an upgrade of something", "start upgrade 1\n", "", 1),
    ("a line that isn't understood ends it; an empty one says nothing and counts", "report\n\nreport \nreport\n",
     "store packs 0 indexes 0 snapshots 0 live 0\n", 3),
    ("a client that isn't there", "step 0", "", 1),
    ("another", "start list\nstart restore 0\n", "", 2),
    ("a client that reported no snapshot", "start list\nfinish 0\nstart forget 0\n", "", 3),
    ("a store that only appends is said by the first line alone", "\nappend-only\n", "", 2),
]
ENDED = [
    UPGRADED,
    ("nothing", "", ""),
    ("lines of which nothing comes", "\n\ndeliver 7\nunlock 9\nrestart\nreplay\n", ""),
    ("what somebody asks who is no client, in the middle of a backup and behind it; its exclusive lock keeps a list out until it is removed",
     "file x 616263\nstart backup a 1\nuntil 0 put-pack\nask refresh 1 9\nask refresh 2 9\nask locks\nask ticket\nask lock 2 exclusive\n"
     "ask lock 1 exclusive\nask lock 1 shared\nfinish 0\nask lock 2 exclusive\nask lock 3 shared\nstart list\nfinish 1\nreport\nunlock 2\n"
     "start list\nfinish 2\nreport\n",
     "ask done\nask refused 2\nask other\nask other\nask refused 3\nask refused 9\nask done\nask done\nask refused 2\n"
     "client 0 backup stored 2 129\nclient 1 list busy\nstore packs 1 indexes 1 snapshots 1 live 1\n"
     "client 0 backup stored 2 129\nclient 1 list busy\nclient 2 list listed 1\nstore packs 1 indexes 1 snapshots 1 live 0\n"),
    ("a client that crashed is still there",
     "start check\ncrash 0\ncrash 0\nstep 0\nfinish 0\nlate 0\nuntil 0 get\nfault 0 read\nreport",
     "late 0 other\nclient 0 check crashed\nstore packs 0 indexes 0 snapshots 0 live 0\n"),
    ("a refused start uses the entries up, and the first bad one decides",
     "dir a//b\nstart backup a 1\ndir b\ndir a\nstart backup a 1\nstart keep 0 0\nstart backup a 1\nfinish 0\nreport\n",
     "start refused 1\nstart refused 2\nstart refused 1\nclient 0 backup stored 1 12\nstore packs 1 indexes 1 snapshots 1 live 0\n"),
    ("a store that only appends refuses to delete",
     "append-only\nfile x 616263\nstart backup a 1\nfinish 0\nstart forget 0\nfinish 1\nreport\n",
     "client 0 backup stored 2 129\nclient 1 forget refused 14\nstore packs 1 indexes 1 snapshots 1 live 0\n"),
    ("an upgrade waits for the lock of an old backup, whose snapshot comes late",
     "file x 616263\nold start backup a 1\nfinish 0\nfile x 616263\nold start backup b 1\nuntil 1 put-snapshot\nstart upgrade\n"
     "finish 2\nunlock 2\nstart upgrade\nfinish 3\nlate 1\nfinish 1\nold start restore 0\nfinish 4\nold start upgrade\nfinish 5\n"
     "start upgrade\nuntil 6 upgrade\nfinish 6\nreport\n",
     "late 1 refused 2\nclient 0 backup stored 2 129\nclient 1 backup fenced\nclient 2 upgrade busy\nclient 3 upgrade upgraded\n"
     "client 4 restore version\nclient 5 upgrade version\nclient 6 upgrade upgraded\n"
     "store packs 1 indexes 1 snapshots 1 live 0\n"),
    ("an upgrade that is sent, and comes late",
     "start upgrade\nuntil 0 upgrade\nunlock 1\nstart upgrade\nfinish 1\nstep 0\nlate 0\nreport\n",
     "late 0 refused 2\nclient 0 upgrade fenced\nclient 1 upgrade upgraded\nstore packs 0 indexes 0 snapshots 0 live 0\n"),
    ("a store that only appends is upgraded", "append-only\nold start upgrade\nfinish 0\nstart upgrade\nfinish 1\nreport\n",
     "client 0 upgrade upgraded\nclient 1 upgrade upgraded\nstore packs 0 indexes 0 snapshots 0 live 0\n"),
    ("a store that only appends is pruned, where nothing is to go, and restored from",
     "append-only\nfile x 616263\nstart backup a 1\nfinish 0\nstart forget 0\nfinish 1\nstart prune\nfinish 2\nstart restore 0\nfinish 3\nreport\n",
     "client 0 backup stored 2 129\nclient 1 forget refused 14\nclient 2 prune pruned 0 0\nclient 3 restore complete 1\n"
     "store packs 1 indexes 1 snapshots 1 live 0\n"),
]


def bytes_of(text):
    """The bytes of a script. Each of the characters from \\udc80 to \\udcff stands for one byte that is no text."""
    return text.encode(errors="surrogateescape")


def played(script, command, heading, text, prints, fault="", **shape):
    script.heading(heading)
    script.played(command, bytes_of(text), prints, fault, **shape)


def worked(script):
    """What is worked out by hand, also with the store opened anew before each line; where messages are carried the same is printed."""
    for heading, text, prints in CARRIED:
        played(script, "play", heading, text, prints)
        played(script, "loop", heading + ", whose messages are carried", text, prints)
    for heading, text, prints in WORKED:
        played(script, "play", heading, text, prints)
        again = "".join("restart\n" + line + "\n" for line in text.splitlines())
        played(script, "play", heading + ", and the store is opened anew before each line", again, prints)
        played(script, "play", heading + ", and each request comes once more at the end", text.replace("report\n", "replay\nreport\n"), prints)
    for heading, text, prints in ENDED:
        played(script, "play", heading, text, prints)


def refused(script):
    """Lines that aren't understood; `vault loop` understands fewer."""
    for heading, text, prints, line in REFUSED:
        played(script, "play", heading, text, prints, f"line {line}: not understood")
    for word in ("step 0", "until 0 get", "late 0", "fault 0 read", "deliver 0", "unlock 1", "ask locks", "feed 0 end", "crash 0", "restart", "replay", "append-only"):
        played(script, "loop", "a line that is none where messages are carried", f"start list\n{word}\n", "", "line 2: not understood")
    # The tree of so many files, in a pack, makes a frame that is too large.
    entries = "".join(f"file {place:04} {place:08x}\n" for place in range(700))
    played(script, "loop", "a frame that is too large", "report\n" + entries + "start backup a 1\nfinish 0\nreport\n",
           "store packs 0 indexes 0 snapshots 0 live 0\n", "frame too large for loop")


def streams(script):
    """Inputs that come byte by byte or break, and outputs that take little. What earlier lines print stands."""
    heading, text, prints = WORKED[2]
    played(script, "play", heading + ", in a script that comes byte by byte", text, prints, slow=True)
    report = "store packs 0 indexes 0 snapshots 0 live 0\n"
    for command in ("play", "loop"):
        played(script, command, "an input that breaks behind two lines", "report\nreport\nrep", 2 * report, "read failed", broken=True)
        for room in (0, 10, len(report), len(report) + 1):
            played(script, command, "an output that takes little", "report\nreport\n", (2 * report)[:room], "write failed", output_room=room)


def others(script):
    """The scripts of another program."""
    for number, one in enumerate(PLAYED):
        played(script, one["command"], f"script {number} of another program", one["script"], one["prints"], one["fault"])


ALL = [worked, refused, streams, others]
