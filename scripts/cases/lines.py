"""Runs of the program, over what a server says and over what is typed; and lines for crates/cases, with what each has to print."""

import commands
from runs import ADDRESS, FOLDER, TARGET, Came, Run, shown, wanted_of
from store import Store


def digits(data):
    """Bytes as a word of a line: `-` for none, `HEX*COUNT` for one that is repeated."""
    if len(data) > 64 and len(set(data)) == 1:
        return f"{data[:1].hex()}*{len(data)}"
    return data.hex() or "-"


class Lines:
    """Runs of the program; and lines, with what they print. What has to come of a run or a line is what comes of it in the reference."""

    def __init__(self):
        self.runs, self.given, self.wanted, self.entries = [], [], [], []
        self.title, self.is_told = "", True

    def line(self, *words):
        if not self.is_told:
            self.is_told = True
            self.given.append("# " + self.title)
            self.wanted.append("# " + self.title)
        self.given.append(" ".join(str(word) for word in words))

    def prints(self, *words):
        self.wanted.append(" ".join(str(word) for word in words))

    def heading(self, text):
        """What the following runs and lines show. It is a line where there are lines."""
        self.title, self.is_told = text, False

    def parts(self, given):
        for word, what in given:
            what = shown(what) if word == "piece" else what
            self.prints(*([word] if what is None else [word, what]))

    # Entries for the next backup.

    def take_in(self, entries):
        self.entries += entries

    def many_files(self, count):
        """Files with names of 5 digits, each with 64 bytes of its own."""
        self.entries += [([f"{number:05}"], b"%064d" % number) for number in range(count)]

    def many_dirs(self, count):
        """Empty directories with names of 255 digits."""
        self.entries += [([f"{number:0255}"], None) for number in range(count)]

    def used(self):
        entries, self.entries = self.entries, []
        return entries

    # Runs of the program: commands over what a server says.

    def command(self, words, run, server, slow=False, broken=False, title=None, **given):
        """A command at a server's address, and what has to come of it."""
        word, *rest = [str(word) for word in words]
        self.runs.append(Run(title or self.title, [word, ADDRESS, *rest], wanted_of(run), server=server, slow=slow, broken=broken, **given))

    def asked(self, words, command, *values, replies=b"", slow=False, broken=False, **shape):
        """A command over these replies; `shape` is how its streams are."""
        server = commands.Server(replies, **shape)
        self.command(words, commands.run(command, server, *values), server, slow, broken)

    def locks(self, replies=b"", **shape):
        self.asked(["locks"], commands.locks, replies=replies, **shape)

    def refresh(self, token, replies=b"", **shape):
        self.asked(["refresh", token], commands.refresh, token, replies=replies, **shape)

    def unlock(self, everything, replies=b"", **shape):
        self.asked(["unlock", "--remove-all"][:1 + everything], commands.unlock, everything, replies=replies, slow=True, **shape)

    def snapshots(self, replies=b"", **shape):
        self.asked(["snapshots"], commands.snapshots, replies=replies, **shape)

    def restore(self, name, replies=b"", **shape):
        self.asked(["restore", name.hex(), TARGET], commands.restore, name, replies=replies, **shape)

    def prune(self, replies=b"", **shape):
        self.asked(["prune"], commands.prune, replies=replies, **shape)

    def upgrade(self, replies=b"", **shape):
        self.asked(["upgrade"], commands.upgrade, replies=replies, **shape)

    def check(self, replies=b"", **shape):
        self.asked(["check"], commands.check, replies=replies, **shape)

    def forget(self, names, replies=b"", **shape):
        self.asked(["forget", *[name.hex() for name in names]], commands.forget, names, replies=replies, **shape)

    def keep(self, last, daily, replies=b"", **shape):
        """A forget by a policy."""
        self.asked(["forget", *policy(last, daily)], commands.forget, (), (last, daily), replies=replies, **shape)

    def keep_of(self, last, daily, host, replies=b"", **shape):
        """A forget by a policy for one host."""
        self.asked(["forget", *policy(last, daily, host)], commands.forget, (), (last, daily), host, replies=replies, **shape)

    def would_forget(self, names, replies=b"", **shape):
        """Which of the snapshots of some names a forget would forget."""
        self.asked(["forget", "--dry-run", *[name.hex() for name in names]], commands.would_forget, names, replies=replies, **shape)

    def would_keep(self, last, daily, host, replies=b"", **shape):
        """Which snapshots a forget by a policy would forget, of one host or of all."""
        words = ["forget", "--dry-run", *policy(last, daily, host)]
        self.asked(words, commands.would_forget, (), (last, daily), host, replies=replies, **shape)

    def backup(self, host, entries, replies=b"", skipped=(), unmet=(), slow=False, broken=False, **shape):
        """A backup of a folder of these entries, which leaves some things out, and would leave out others if it came to them."""
        server = commands.Server(replies, **shape)
        entries = self.used() + entries
        run = commands.run(commands.backup, server, host, entries, skipped)
        self.command(["backup", host, FOLDER], run, server, slow, broken, entries=entries, skipped=(*skipped, *unmet))

    # Runs of the program: other words.

    def vault(self, words, typed, came, slow=False, broken=False, output_room=None, is_brief=False):
        """The words of the program over what is typed, and what has to come of it."""
        self.runs.append(Run(self.title, words.split(" ")[1:], came, typed, None, slow, broken, output_room, is_brief=is_brief))

    def ended(self, words, status, output="", faults="", lines=()):
        """The words of the program over these lines, and how it has to end."""
        self.vault(words, "".join(line + "\n" for line in lines).encode(), Came(status, output=output, faults=faults))

    def played(self, command, script, prints, fault="", **shape):
        """A script that is played."""
        faults = fault + "\n" * bool(fault)
        self.vault("vault " + command, script, Came(1 if fault else 0, output=prints, faults=faults), **shape)

    def frames(self, lines=(), typed=b"", slow=False, broken=False, output_room=None):
        """`vault frames` over lines, and bytes after them."""
        typed = "".join(line + "\n" for line in lines).encode() + typed
        status, output, faults = commands.framed(Store(), typed.decode("latin-1"), broken, output_room)
        self.vault("vault frames", typed, Came(status, output=output, faults=faults), slow, broken, output_room)

    def clap(self, words, status, output="", faults=""):
        """Words of which clap tells; the first line is what is wanted."""
        self.vault(words, b"", Came(status, output=output, faults=faults), is_brief=True)


def policy(last, daily, host=None):
    """The words of a policy."""
    return ["--keep-last", last, "--keep-daily", daily] + ["--host", host] * (host is not None)
