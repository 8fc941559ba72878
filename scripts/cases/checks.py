"""The client of a check: it reads all of a store, and tells what is at fault."""

from jobs import DEEPEST, End, Outcome, listed, refusal
from prunes import by_pack, least_places
from naming import name_of
from texts import OtherVersion, Unreadable, goes_on, read_index, read_next, read_pack, read_snapshot, read_tree


class Fault(Exception):
    """A thing is at fault, in the way of this word."""

    def word(self):
        return self.args[0]


def brought(ask, absent):
    """The bytes that come for a thing. It isn't there where the refusal has one of some codes."""
    say = yield ask
    if say[0] == "refused":
        raise Fault("missing") if say[1] in absent else refusal(ask, say[1])
    if say[0] != "bytes":
        raise End("badreply")
    return say[1]


def read_as(name, data, read):
    """What bytes hold that have to have a name."""
    if name_of(data) != name:
        raise Fault("name")
    try:
        return read(data)
    except OtherVersion:
        raise End("version")
    except Unreadable:
        raise Fault("unreadable")


def fits(facts, packs):
    """Whether an index tells of each pack that its facts name just what the pack holds. A pack that isn't well holds
    nothing."""
    for pack, own in by_pack(facts).items():
        held = [(kind, name, (pack, offset, length)) for kind, name, offset, length in packs.get(pack, [])]
        if own != held:
            return False
    return True


class Trees:
    """The trees that snapshots reach: each is asked for once, at the least of its places."""

    def __init__(self, places):
        self.places, self.nodes, self.texts, self.faults = places, {}, {}, {}
        self.reached, self.content, self.chains = set(), set(), []

    def size(self, node):
        """The length of all blobs of a file; none where one of them is in no index."""
        keys = [("content", bytes.fromhex(name)) for name in node["content"]]
        return sum(self.places[key][2] for key in keys) if all(key in self.places for key in keys) else None

    def read(self, name):
        """Reads a tree. If it has another length than its place, or a file in it another size than its blobs, the tree is at fault, and its nodes
        count."""
        if ("tree", name) not in self.places:
            raise Fault("unindexed")
        place = self.places["tree", name]
        data = yield from brought(("range", *place), (5, 8))
        nodes = read_as(name, data, read_tree)
        self.nodes[name], self.texts[name] = nodes, data
        files = [node for node in nodes if node["type"] == "file"]
        if len(data) != place[2] or any(self.size(node) not in (None, node["size"]) for node in files):
            raise Fault("unreadable")

    def look(self, name):
        """Reads a tree, if that wasn't done."""
        if name not in self.nodes and name not in self.faults:
            try:
                yield from self.read(name)
            except Fault as fault:
                self.faults[name] = fault.word()

    def part(self, name, follows):
        """The nodes of a tree, and the name in which its directory goes on, if it does. A part whose `next` is no name is at fault,
        and lists nothing."""
        nodes = self.nodes.get(name, [])
        try:
            return nodes, read_next(self.texts[name]) if follows and name in self.texts else None
        except Unreadable:
            self.faults[name] = "unreadable"
            return [], None

    def walk(self, roots):
        """Goes from the roots, each with whether its directories go on in further trees: every tree is visited once in each way and
        at each depth at which it is reached, in the order in which it is met. At the greatest depth none may have nodes."""
        visits = list(dict.fromkeys((name, follows, 0) for name, follows in roots))
        met = set(visits)
        for name, follows, depth in visits:
            self.reached.add(name)
            yield from self.look(name)
            for visit in self.led(name, follows, depth):
                if visit not in met:
                    met.add(visit)
                    visits.append(visit)
        for name, following in self.chains:
            if following in self.nodes and not goes_on(self.nodes[name], self.nodes[following]):
                self.faults[following] = "unreadable"

    def led(self, name, follows, depth):
        """The visits to which that of a tree leads: those of the directories in it, and that of the tree in which it goes on."""
        nodes, following = self.part(name, follows)
        if depth == DEEPEST and nodes:
            self.faults[name] = "unreadable"
        for node in nodes if depth < DEEPEST else []:
            if node["type"] == "file":
                self.content |= {bytes.fromhex(one) for one in node["content"]}
            else:
                yield bytes.fromhex(node["subtree"]), follows, depth + 1
        if following is not None:
            self.chains.append((name, following))
            yield following, follows, depth


class Check:
    """A check of all that a store has."""
    role, exclusive = "check", True

    def __init__(self):
        self.faults = []

    def objects(self, kind, read):
        """What the objects of a kind hold that are well, by their names."""
        held = {}
        for name in (yield from listed(kind)):
            try:
                held[name] = read_as(name, (yield from brought(("get", kind, name), (5,))), read)
            except Fault as fault:
                self.faults.append((kind, name, fault.word()))
        return held

    def run(self, client):
        snapshots = yield from self.objects("snapshot", lambda data: read_snapshot(data, client.upto))
        indexes = yield from self.objects("index", read_index)
        packs = yield from self.objects("pack", read_pack)
        trees = Trees(least_places(fact for facts in indexes.values() for fact in facts))
        yield from trees.walk((root, version == 2) for *_, root, version in snapshots.values())
        self.faults += [("index", name, "place") for name, facts in indexes.items() if not fits(facts, packs)]
        self.faults += [("content", name, "unindexed") for name in sorted(trees.content) if ("content", name) not in trees.places]
        self.faults += [("tree", name, trees.faults[name]) for name in sorted(trees.faults)]
        if self.faults:
            return Outcome(f"faults {len(self.faults)}", faults=self.faults)
        return Outcome(f"clean {len(snapshots)} {len(indexes)} {len(packs)} {len(trees.reached) + len(trees.content)}")
