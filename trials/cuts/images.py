"""What is wrong with an image of a disk, read in memory: by the formats alone, without the program."""
import hashlib
import json
import re
import struct

KINDS = ("data", "index", "snapshots")
TYPES = {"data": 0, "tree": 1}
FOLDERS = ["tmp", "index", "snapshots", *(f"data/{at:02x}" for at in range(256))]
OBJECT = re.compile(r"(data/[0-9a-f]{2}|index|snapshots)/([0-9a-f]{64})")


class Reader:
    """Reads objects, and remembers what it read."""

    def __init__(self):
        self.names, self.packs, self.indexes = {}, {}, {}

    def name(self, data):
        if data not in self.names:
            self.names[data] = hashlib.sha256(data).hexdigest()
        return self.names[data]

    def pack(self, data):
        """The blobs of a pack, each by kind, name, offset and length."""
        if data not in self.packs:
            size, at, found = struct.unpack("<I", data[-4:])[0], 0, {}
            for kind, length, name in struct.iter_unpack("<BI32s", data[-4 - size:-4]):
                found[kind, name.hex(), at, length] = data[at:at + length]
                at += length
            self.packs[data] = found
        return self.packs[data]

    def index(self, data):
        """What an index tells of each pack."""
        if data not in self.indexes:
            found = {}
            for pack in json.loads(data)["packs"]:
                blobs = {(TYPES[blob["type"]], blob["id"], blob["offset"], blob["length"]) for blob in pack["blobs"]}
                if blobs:
                    found.setdefault(pack["id"], set()).update(blobs)
            self.indexes[data] = found
        return self.indexes[data]


class Image:
    """What a cut left of a store, and what is wrong with it."""

    def __init__(self, reader, store, files, folders):
        self.reader, self.faults, self.objects = reader, [], {}
        self.files = {path.removeprefix(f"{store}/"): data for path, data in files.items() if path.startswith(f"{store}/")}
        self.folders = {path.removeprefix(f"{store}/") for path in folders}
        for path, data in self.files.items():
            found = OBJECT.fullmatch(path)
            if found:
                self.objects[KINDS.index(found[1].split("/")[0]), found[2]] = data
                if reader.name(data) != found[2]:
                    self.faults.append(f"{path} has other bytes than its name")

    def whole(self, kind):
        """The objects of a kind that have their names."""
        return {name: data for (sort, name), data in self.objects.items() if sort == kind and self.reader.name(data) == name}

    def looks_at_answers(self, answers):
        """What was acknowledged is there, and what was acknowledged as deleted isn't."""
        for (kind, name), is_there in answers.objects.items():
            if is_there is not None and ((kind[0], name) in self.objects) != is_there:
                self.faults.append(f"{KINDS[kind[0]]}/{name} was acknowledged, and is lost" if is_there else f"{KINDS[kind[0]]}/{name} was deleted, and is back")

    def looks_at_ledger(self, ledgers):
        """The ledger is that of the last answer, or a later one; the folders are there."""
        if self.files.get("ledger") not in ledgers:
            self.faults.append("the ledger is lost" if "ledger" not in self.files else "the ledger is an older one than was answered by")
        if lacking := [name for name in FOLDERS if name not in self.folders]:
            self.faults.append(f"the folder {lacking[0]} is lost")

    def looks_at_config(self, configs):
        """The config is that of the last answer, or a later one."""
        if self.files.get("config") not in configs:
            self.faults.append("the config is lost" if "config" not in self.files else "the config is an older one than was answered by")

    def places(self):
        """Of each blob that an index tells of, its bytes; each index fits its packs."""
        found = {}
        for name, data in self.whole(1).items():
            for pack, blobs in self.reader.index(data).items():
                if (0, pack) not in self.objects:
                    self.faults.append(f"index/{name} names the pack {pack}, which isn't there")
                    continue
                if self.reader.name(self.objects[0, pack]) != pack:
                    continue
                held = self.reader.pack(self.objects[0, pack])
                if set(held) != blobs:
                    self.faults.append(f"index/{name} tells otherwise of the pack {pack}")
                found.update({blob[:2]: held[blob] for blob in blobs & set(held)})
        return found

    def looks_at_snapshots(self, due):
        """Each snapshot has all its blobs."""
        places = self.places()
        for name, data in self.whole(2).items():
            if self.lacks_blob(json.loads(data), places):
                self.faults.append(f"snapshots/{name}, {'acknowledged' if name in due else 'not acknowledged, or asked to be forgotten'}, lacks a blob")

    def lacks_blob(self, snapshot, places):
        """Whether a blob isn't in any of these places that a snapshot needs."""
        rest, seen = [(1, snapshot["tree"])], set()
        while rest:
            blob = rest.pop()
            if blob not in places:
                return True
            if blob not in seen and blob[0] == 1:
                text = json.loads(places[blob])
                for node in text["nodes"]:
                    rest += [(1, node["subtree"])] if node["type"] == "dir" else [(0, content) for content in node["content"]]
                # In version 2 a directory may go on in another tree.
                rest += [(1, text["next"])] if snapshot["version"] == 2 and "next" in text else []
            seen.add(blob)
        return False


def faults_of(image, answers, ledgers, configs, is_made):
    """All that is wrong with an image, texts."""
    image.looks_at_answers(answers)
    if is_made:
        image.looks_at_ledger(ledgers)
        image.looks_at_config(configs)
    image.looks_at_snapshots(answers.due())
    return image.faults


def shortened(fault):
    """A fault without names, so that those alike are counted together."""
    return re.sub(r"[0-9a-f]{64}", "NAME", fault)
