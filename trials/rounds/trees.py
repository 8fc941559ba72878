"""Folders by chance: names and sizes of all sorts, and what changes in them from one backup to the next."""
import hashlib
import os
import shutil
from pathlib import Path

NAMES = ["notes", "photo 1.jpg", "-rf", "--help", "...", ".hidden", "line\nfeed", "tab\there", "quote\"s", "back\\slash", "ä", "a\u0308", "海", "🙂",
         "\ufeffmark", "\u202eturned", "!restoring-0", "é" * 127, "x" * 255, "config", "ledger", "tmp"]
# The part of a folder that changes while it is backed up. What a snapshot has of it isn't compared.
BUSY = "busy"
# A folder deeper than this gets no more folders. What is moved ends up no deeper, so that no path is too long to be backed up or restored.
MOST_NAMES, MOST_BYTES = 20, 3000


def is_too_deep(root, folder, more=()):
    """Whether a folder has no place for another one, or for an entry with these paths below it."""
    names = len(folder.relative_to(root).parts) + max((len(path.parts) for path in more), default=0)
    length = len(os.fsencode(folder)) + max((len(os.fsencode(path)) for path in more), default=0)
    return names >= MOST_NAMES or length >= MOST_BYTES


def fresh_name(chance, folder):
    """A name that nothing in the folder has."""
    while True:
        name = chance.choice(NAMES) if chance.random() < 0.4 else f"n{chance.randrange(1000)}"
        if not os.path.lexists(folder / name):
            return name


def fresh_bytes(chance, greatest):
    """Bytes of a file: of no length, a few, some thousand, now and then many; by chance, or the same over and over."""
    most = chance.choice((0, 1, 200, 200, 5_000, 5_000, min(100_000, greatest), greatest if chance.random() < 0.15 else 5_000))
    length = chance.randrange(most + 1)
    return chance.randbytes(length) if chance.random() < 0.8 else bytes([chance.randrange(256)]) * length


def folders_of(root):
    return [root, *(path for path in sorted(root.rglob("*")) if path.is_dir() and not path.is_symlink() and path.name != BUSY)]


def files_of(root):
    return [path for path in sorted(root.rglob("*")) if path.is_file() and not path.is_symlink() and BUSY not in path.parts]


def adds_file(chance, root, greatest):
    folder = chance.choice(folders_of(root))
    (folder / fresh_name(chance, folder)).write_bytes(fresh_bytes(chance, greatest))


def adds_folder(chance, root, greatest):
    folder = chance.choice(folders_of(root))
    if not is_too_deep(root, folder):
        (folder / fresh_name(chance, folder)).mkdir()


def adds_odd_entry(chance, root, greatest):
    """A link, a FIFO, or a name that isn't UTF-8: none of them is stored."""
    folder = chance.choice(folders_of(root))
    name = os.fsencode(folder / fresh_name(chance, folder))[:4000]
    match chance.randrange(3):
        case 0:
            os.symlink(b"/etc", name)
        case 1:
            os.mkfifo(name)
        case 2:
            Path(os.fsdecode(os.fsencode(folder) + b"/\xff%d" % chance.randrange(1000))).write_bytes(b"no text")


def edits_file(chance, root, greatest):
    """A file gets more bytes, fewer, or others in its middle."""
    files = files_of(root)
    if files:
        path = chance.choice(files)
        data = path.read_bytes()
        at = chance.randrange(len(data) + 1)
        path.write_bytes(chance.choice((data + fresh_bytes(chance, 5_000), data[:at], data[:at] + b"changed" + data[at + 7:])))


def copies_file(chance, root, greatest):
    files = files_of(root)
    if files:
        folder = chance.choice(folders_of(root))
        shutil.copyfile(chance.choice(files), folder / fresh_name(chance, folder))


def moves(chance, root, greatest):
    """A file or a directory gets another name, in any directory that isn't below it."""
    entries = [path for path in sorted(root.rglob("*")) if BUSY not in path.parts]
    if entries:
        path = chance.choice(entries)
        folder = chance.choice([folder for folder in folders_of(root) if folder != path and path not in folder.parents])
        below = [each.relative_to(path) for each in path.rglob("*")] if path.is_dir() and not path.is_symlink() else []
        if not is_too_deep(root, folder, below):
            path.rename(folder / fresh_name(chance, folder))


def removes(chance, root, greatest):
    entries = [path for path in sorted(root.rglob("*")) if BUSY not in path.parts]
    if entries:
        path = chance.choice(entries)
        shutil.rmtree(path) if path.is_dir() and not path.is_symlink() else path.unlink()


EDITS = [adds_file] * 6 + [adds_folder] * 3 + [edits_file] * 4 + [copies_file] * 2 + [moves] * 2 + [removes] * 2


def edited(chance, root, greatest, with_odd_entries):
    """A folder changes in several places; an empty one gets more."""
    count = chance.randrange(1, 8) if any(root.iterdir()) else chance.randrange(0, 25)
    for _ in range(count):
        chance.choice(EDITS)(chance, root, greatest)
    if with_odd_entries and chance.random() < 0.3:
        adds_odd_entry(chance, root, greatest)


def is_text(name):
    try:
        name.encode()
    except UnicodeEncodeError:
        return False
    return True


def contents(root):
    """What a backup of a folder stores: of each path None for a directory, or the SHA-256 of a file's bytes."""
    found = {}
    for path in sorted(Path(root).rglob("*")):
        name = str(path.relative_to(root))
        if path.is_symlink() or not is_text(name) or BUSY in path.parts:
            continue
        if path.is_dir():
            found[name] = None
        elif path.is_file():
            found[name] = hashlib.sha256(path.read_bytes()).hexdigest()
    return found


def has_odd_entries(root):
    """Whether a backup of a folder leaves something out."""
    return any(path.is_symlink() or not is_text(path.name) or not (path.is_dir() or path.is_file()) for path in Path(root).rglob("*"))


def changes_meanwhile(chance, root, ends):
    """Files come, grow and go in the busy part of a folder, until `ends` is set."""
    folder = root / BUSY / f"{chance.randrange(1 << 30)}"
    folder.mkdir(parents=True, exist_ok=True)
    while not ends.wait(0.002):
        path = folder / f"m{chance.randrange(20)}"
        match chance.randrange(4):
            case 0 | 1:
                path.write_bytes(chance.randbytes(chance.randrange(3000)))
            case 2:
                path.unlink(missing_ok=True)
            case 3:
                with open(path, "ab") as file:
                    file.write(b"more")
    shutil.rmtree(folder)
