"""The objects: indexes, trees, snapshots and configs as texts, and packs."""

import json
import math
import struct

from naming import BLOB_LARGEST, LARGEST, name_of

GREATEST_NUMBER = 2**64 - 1
GREATEST_VERSION = 2
TYPES = {"content": "data", "tree": "tree"}


class Unreadable(Exception):
    """Bytes that aren't the text that they have to be."""


class OtherVersion(Exception):
    """A text of a version that isn't known."""


def dump(value):
    """A compact text, with keys in the order of their bytes."""
    return json.dumps(value, sort_keys=True, separators=(",", ":"), ensure_ascii=False).encode()


def index_text(packs):
    """The index of packs, each (name, [(kind, name, offset, length)])."""
    return dump({"supersedes": [], "packs": [
        {"id": pack.hex(), "blobs": [
            {"id": name.hex(), "length": length, "offset": offset, "type": TYPES[kind]}
            for kind, name, offset, length in blobs]}
        for pack, blobs in packs]})


def file_node(name, size, content):
    return {"name": name, "type": "file", "size": size, "content": [one.hex() for one in content]}


def dir_node(name, subtree):
    return {"name": name, "type": "dir", "subtree": subtree.hex()}


def tree_text(nodes):
    return dump({"nodes": nodes})


def part_text(nodes, following=None):
    """The tree of a part of a directory, which goes on in another tree, if that is given."""
    return tree_text(nodes) if following is None else dump({"next": following.hex(), "nodes": nodes})


def parts_of(nodes):
    """The nodes of each part of a directory: all that are left where they fit a text that goes on in none, else as many as fit
    one that goes on, and at least one."""
    lengths = [len(dump(node)) + 1 for node in nodes]
    bare, going_on = len(tree_text([])) - 1, len(part_text([], bytes(32))) - 1
    parts, at, left = [], 0, sum(lengths)
    while at < len(nodes) and bare + left > BLOB_LARGEST:
        end, size = at + 1, going_on + lengths[at]
        while end < len(nodes) and size + lengths[end] <= BLOB_LARGEST:
            size += lengths[end]
            end += 1
        parts.append(nodes[at:end])
        left -= sum(lengths[at:end])
        at = end
    return parts + [nodes[at:]] if at < len(nodes) or not nodes else parts


def directory_texts(nodes, version):
    """The texts of a directory's trees, in the order in which they are made: of version 2 its parts, from the last to the
    first; of version 1 its only tree."""
    texts = []
    for part in reversed(parts_of(nodes) if version == 2 else [nodes]):
        texts.append(part_text(part, name_of(texts[-1]) if texts else None))
    return texts


def snapshot_text(host, time, token, tree, version=1):
    return dump({"host": host, "time": time, "token": token, "tree": tree.hex(), "version": version})


def config_text(minimum=64, maximum=128, bits=6, target=1_024, version=1, identity="00" * 16):
    return dump({"chunk_bits": bits, "chunk_max": maximum, "chunk_min": minimum, "id": identity,
                 "pack_target": target, "version": version})


def pack_of(blobs):
    """The pack of blobs (kind, bytes): its bytes, and the place of each blob."""
    data, header, places = b"", b"", []
    for kind, blob in blobs:
        places.append((kind, name_of(blob), len(data), len(blob)))
        header += bytes([kind == "tree"]) + struct.pack("<I", len(blob)) + name_of(blob)
        data += blob
    return data + header + struct.pack("<I", len(header)), places


def refuse(text):
    raise Unreadable(text)


def integer(text):
    """A number without point or exponent: one that has a sign isn't a whole one."""
    return float(text) if text.startswith("-") else int(text)


def finite(text):
    number = float(text)
    return number if math.isfinite(number) else refuse(text)


def load(data):
    """The value of a text."""
    try:
        value = json.loads(data.decode(), parse_constant=refuse, parse_int=integer, parse_float=finite)
        json.dumps(value, ensure_ascii=False).encode()
        return value
    except (UnicodeError, json.JSONDecodeError):
        raise Unreadable("no text")


def want(holds):
    if not holds:
        raise Unreadable("another shape")


def field(value, key, sort):
    """A key's value, which is of a type. A truth value is no number."""
    want(type(value) is dict and key in value and type(value[key]) is sort)
    return value[key]


def number(value, key, greatest=GREATEST_NUMBER):
    found = field(value, key, int)
    want(0 <= found <= greatest)
    return found


def named(text):
    want(type(text) is str and len(text) == 64 and all(digit in "0123456789abcdef" for digit in text))
    return bytes.fromhex(text)


def fact_of(pack, blob):
    name = named(field(blob, "id", str))
    length, offset = number(blob, "length"), number(blob, "offset")
    kinds = {word: kind for kind, word in TYPES.items()}
    want(field(blob, "type", str) in kinds)
    want(1 <= length <= BLOB_LARGEST and offset + length <= 25_165_823)
    return (kinds[blob["type"]], name, (pack, offset, length))


def read_index(data):
    """The facts of an index: (kind, name, (pack, offset, length))."""
    value = load(data)
    facts = []
    for item in field(value, "packs", list):
        want(type(item) is dict)
        blobs = field(item, "blobs", list)
        pack = named(field(item, "id", str))
        facts += [fact_of(pack, blob) for blob in blobs]
    for name in field(value, "supersedes", list) if "supersedes" in value else []:
        named(name)
    return facts


def read_pack(data):
    """The blobs of a pack, of which each has its name: (kind, name, offset, length)."""
    want(len(data) >= 4)
    header = int.from_bytes(data[-4:], "little")
    blobs, offset = len(data) - 4 - header, 0
    want(0 < header <= 37 * 4_096 and header % 37 == 0 and blobs >= 0)
    rows = []
    for at in range(blobs, len(data) - 4, 37):
        kind, length, name = data[at], int.from_bytes(data[at + 1:at + 5], "little"), data[at + 5:at + 37]
        want(kind in (0, 1) and 1 <= length <= BLOB_LARGEST and name_of(data[offset:offset + length]) == name)
        rows.append(("tree" if kind else "content", name, offset, length))
        offset += length
    want(offset == blobs)
    return rows


def is_component(name):
    return 1 <= len(name.encode()) <= 255 and "/" not in name and "\0" not in name and name not in (".", "..")


def check_node(node, before):
    name = field(node, "name", str)
    sort = field(node, "type", str)
    want(sort in ("file", "dir"))
    if sort == "file":
        number(node, "size", 2**48 - 1)
        for one in field(node, "content", list):
            named(one)
    else:
        named(field(node, "subtree", str))
    want(is_component(name))
    want(before is None or before.encode() < name.encode())


def read_tree(data):
    """The nodes of a tree."""
    want(len(data) <= BLOB_LARGEST)
    nodes = field(load(data), "nodes", list)
    before = None
    for node in nodes:
        check_node(node, before)
        before = node["name"]
    return nodes


def read_next(data):
    """The name in which the directory of a tree goes on, if it does."""
    value = load(data)
    return named(value["next"]) if "next" in value else None


def read_part(data, version):
    """The nodes of a tree, and the name in which its directory goes on: of version 1 in none."""
    nodes = read_tree(data)
    return nodes, read_next(data) if version == 2 else None


def goes_on(nodes, later):
    """Whether a part with these later nodes may come after one with these nodes."""
    return bool(later) and (not nodes or nodes[-1]["name"].encode() < later[0]["name"].encode())


def read_version(data, largest, upto):
    """A text of a version that a reader knows: one from 1 to this one."""
    want(len(data) <= largest)
    value = load(data)
    if not 1 <= number(value, "version") <= upto:
        raise OtherVersion(value["version"])
    return value


def read_snapshot(data, upto=GREATEST_VERSION):
    """Its host, time, token, tree and version."""
    value = read_version(data, LARGEST["snapshot"], upto)
    want(1 <= len(field(value, "host", str).encode()) <= 255)
    return value["host"], number(value, "time"), number(value, "token"), named(field(value, "tree", str)), value["version"]


def read_config(data, upto=GREATEST_VERSION):
    """The chunk rule's least and greatest length and bits, a pack's target, the version, and the repository's own digits."""
    value = read_version(data, 65_536, upto)
    minimum, maximum = number(value, "chunk_min"), number(value, "chunk_max")
    bits, target = number(value, "chunk_bits"), number(value, "pack_target")
    identity = field(value, "id", str)
    want(len(identity) == 32 and all(digit in "0123456789abcdef" for digit in identity))
    want(64 <= minimum <= maximum <= 8_388_608 and 1 <= bits <= 32 and 1_024 <= target <= 16_777_216)
    return minimum, maximum, bits, target, value["version"], identity
