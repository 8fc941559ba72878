"""A disk, by the calls that were made: what a power cut may leave of it after each of them.

An image is what is left: the files with their bytes, and the folders. A file's bytes last once it was synced; until then they may be the old
ones, the new ones, the first of these, or zeros. What lasts of names goes by one of three models of a file system:

    names    a name lasts once its folder was synced; until then each name may be at any state that it went through, by itself
    folders  the same, but the changes in a folder last in their order
    journal  all changes of names last in one order, and each sync has all before it last
"""
import os


class File:
    def __init__(self, data=b""):
        self.now, self.lasting = data, None


class Folder:
    """What its names are now; and since its last sync what each went through, and the changes in their order."""

    def __init__(self):
        self.now, self.past, self.changes = {}, {}, []


class Disk:
    """The folder `top`, which lasts, and what is in it."""

    def __init__(self, top):
        self.top, self.root, self.open, self.steps = os.path.abspath(top), Folder(), {}, []
        self.journal = {}

    def names(self, path):
        rest = os.path.relpath(path, self.top)
        return [] if rest == "." else rest.split("/")

    def get(self, path):
        node = self.root
        for name in self.names(path):
            if not isinstance(node, Folder) or name not in node.now:
                return None
            node = node.now[name]
        return node

    def gives(self, *pairs):
        """Changes names in one step: each path has this node then, or none."""
        step = []
        for path, node in pairs:
            folder, name = self.get(os.path.dirname(path)), os.path.basename(path)
            folder.past.setdefault(name, [folder.now.get(name)]).append(node)
            folder.changes.append((name, node))
            folder.now.pop(name, None)
            if node is not None:
                folder.now[name] = node
            step.append((folder, name, node))
        self.steps.append(step)

    def syncs(self, node):
        if isinstance(node, Folder):
            node.past, node.changes = {}, []
        else:
            node.lasting = node.now
        self.steps, self.journal = [], lasting_names(self.root)

    def all_lasts(self, node=None):
        """Everything is on the disk."""
        node = node or self.root
        self.syncs(node)
        for each in node.now.values() if isinstance(node, Folder) else ():
            self.all_lasts(each)

    def apply(self, event):
        """Makes the change of one call."""
        getattr(self, "when_" + event[0])(*event[1:])

    def when_open(self, path, creates, empties, appends, number):
        node = self.get(path)
        if node is None and creates:
            node = File()
            self.gives((path, node))
        elif isinstance(node, File) and empties and node.now:
            node.now = b""
        self.open[number] = [node, len(node.now) if appends and isinstance(node, File) else 0]

    def when_close(self, number):
        self.open.pop(number, None)

    def when_write(self, number, data, place):
        node, at = self.open.get(number, (None, 0))
        if isinstance(node, File):
            at = at if place is None else place
            node.now = node.now[:at].ljust(at, b"\0") + data + node.now[at + len(data):]
            if place is None:
                self.open[number][1] = at + len(data)

    def when_cut(self, number, length):
        node, _ = self.open.get(number, (None, 0))
        if isinstance(node, File):
            node.now = node.now[:length].ljust(length, b"\0")

    def when_sync(self, path, number):
        if path is None:
            return self.all_lasts()
        node = self.open[number][0] if number in self.open else self.get(path)
        if node is not None:
            self.syncs(node)

    def when_rename(self, source, target):
        node = self.get(source)
        if node is not None:
            self.gives((source, None), (target, node))

    def when_unlink(self, path):
        if self.get(path) is not None:
            self.gives((path, None))

    def when_mkdir(self, path):
        self.gives((path, Folder()))

    def starts(self):
        """Another process begins: it has nothing open."""
        self.open = {}

    # What a cut may leave.

    def by_names(self, pick, bytes_of):
        """`pick` takes the states that a name went through, and gives one of them."""
        return walked(self.root, lambda folder: folder.now | {name: pick(past) for name, past in folder.past.items()}, bytes_of)

    def by_folders(self, chance, bytes_of):
        """Of each folder so many of its first changes last as chance has it."""
        def state(folder):
            names = folder.now | {name: past[0] for name, past in folder.past.items()}
            return names | dict(folder.changes[:chance.randrange(len(folder.changes) + 1)])
        return walked(self.root, state, bytes_of)

    def by_journal(self, count, bytes_of):
        """So many of the last changes' steps last."""
        over = {}
        for folder, name, node in (change for step in self.steps[:count] for change in step):
            over.setdefault(id(folder), {})[name] = node
        return walked(self.root, lambda folder: self.journal.get(id(folder), {}) | over.get(id(folder), {}), bytes_of)


def lasting_names(root):
    """What the names of each folder are, by the folder's identity."""
    found, rest = {}, [root]
    while rest:
        folder = rest.pop()
        found[id(folder)] = dict(folder.now)
        rest += [node for node in folder.now.values() if isinstance(node, Folder)]
    return found


def walked(root, state, bytes_of):
    """The image of which each folder has these names, and each file these bytes."""
    files, folders, rest = {}, set(), [(root, "")]
    while rest:
        folder, path = rest.pop()
        for name, node in state(folder).items():
            if isinstance(node, Folder):
                folders.add(f"{path}/{name}")
                # In most of the folders there is nothing, and nothing was.
                if node.now or node.past:
                    rest.append((node, f"{path}/{name}"))
            elif node is not None:
                files[f"{path}/{name}"] = bytes_of(node)
    return files, folders


def new_bytes(file):
    return file.now


def old_bytes(file):
    return file.lasting or b""


def any_bytes(chance):
    """Of a file that isn't synced: what chance has of old, new, the first new ones, and zeros."""
    def bytes_of(file):
        new, old = file.now, file.lasting or b""
        if file.lasting == new:
            return new
        length = chance.randrange(len(new) + 1)
        return chance.choice((new, old, new[:length], bytes(len(new)), new[:length] + bytes(len(new) - length)))
    return bytes_of


def cuts(disk, chance, few):
    """Images that a cut now may leave, with the name of the model of each: those at the ends, and some by chance."""
    yield "names, all lost", disk.by_names(lambda past: past[0], old_bytes)
    yield "names, all kept", disk.by_names(lambda past: past[-1], new_bytes)
    yield "names, all kept and their bytes lost", disk.by_names(lambda past: past[-1], old_bytes)
    steps = len(disk.steps)
    for count in sorted({0, 1, 2, steps // 2, steps - 2, steps - 1, steps} & set(range(steps + 1))):
        yield "journal", disk.by_journal(count, chance.choice((old_bytes, new_bytes, any_bytes(chance))))
    for _ in range(few):
        kept = chance.choice((0.1, 0.5, 0.9))
        yield "names, by chance", disk.by_names(lambda past: past[-1] if chance.random() < kept else chance.choice(past), any_bytes(chance))
    for _ in range((few + 1) // 2):
        yield "folders", disk.by_folders(chance, any_bytes(chance))
