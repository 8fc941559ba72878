"""Cases of a world of its own, whose events happen in two goes: a backup, and a restore of what it stored; and what the world shows of them."""

from jobs import Backup, Client, Restore
from lines import digits
from runs import shown
from store import Store
from texts import config_text

HOST, TIME = "a", 5


def ended(store, job):
    """A client that was brought to its end, how many exchanges that took, and what it gave out."""
    client = Client(job, bytes(16), HOST, TIME)
    return client, *client.finish(store)


def shows(script, heading, entries):
    """A backup and a restore to their ends: how each ended, the snapshot's bytes, and what the restore gave out."""
    script.heading(heading)
    for path, data in entries:
        script.line(*["dir", "/".join(path)] if data is None else ["file", "/".join(path), digits(data)])
    store = Store()
    store.config = config_text()
    backup, first, _ = ended(store, Backup(entries))
    name = backup.outcome.name
    restore, second, given = ended(store, Restore(name))
    script.line("world", first, second)
    script.prints(backup.outcome.text)
    script.prints("snapshot", shown(store.objects["snapshot"][name]))
    script.prints(restore.outcome.text)
    script.parts(given)


def worlds(script):
    """Folders of all sorts, and a backup of which too little happens."""
    shows(script, "events of a world: an empty folder", [])
    shows(script, "events of a world: a file", [(["x"], b"abc")])
    shows(script, "events of a world: files in directories, one in chunks, one without bytes",
          [(["d"], None), (["d", "e"], None), (["d", "e", "f"], bytes(range(256)) * 3), (["d", "g"], b""), (["h"], b"de")])
    script.heading("events of a world: of a backup three exchanges happen")
    script.line("file", "x", "616263")
    script.line("world", 3, 0)
    script.prints("running")


ALL = [worlds]
