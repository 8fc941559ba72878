"""What a store holds behind a prune: just the blobs that its snapshots need, each once, and each pack in one index."""
import json
from collections import Counter

from cuts.images import Image, Reader


def faults_of_pruned(store):
    """What is wrong with a store's folder behind a prune. It is read whole."""
    paths = [path for path in store.rglob("*") if path.is_file()]
    files = {f"/store/{path.relative_to(store)}": path.read_bytes() for path in paths}
    image = Image(Reader(), "/store", files, [])
    image.looks_at_snapshots({path.name for path in paths})
    if image.faults:
        yield from image.faults
        return
    held = Counter(blob[:2] for data in image.whole(0).values() for blob in image.reader.pack(data))
    needed = Counter(needed_by(image))
    if held != needed:
        yield f"behind a prune {len(held - needed)} blobs are there that nothing needs, and {len(needed - held)} are lacking"
    listed = Counter(pack["id"] for data in image.whole(1).values() for pack in json.loads(data)["packs"])
    if listed != Counter(image.whole(0).keys()):
        yield f"behind a prune the indexes list {sum(listed.values())} packs, and {len(image.whole(0))} are there"


def needed_by(image):
    """The blobs that the snapshots of an image need, by kind and name."""
    places, needed, seen = image.places(), set(), set()
    for data in image.whole(2).values():
        snapshot = json.loads(data)
        rest = [(snapshot["tree"], snapshot["version"] == 2)]
        while rest:
            tree, follows = rest.pop()
            if (tree, follows) in seen:
                continue
            seen.add((tree, follows))
            needed.add((1, tree))
            text = json.loads(places[1, tree])
            needed |= {(0, name) for node in text["nodes"] if node["type"] == "file" for name in node["content"]}
            rest += [(node["subtree"], follows) for node in text["nodes"] if node["type"] == "dir"]
            rest += [(text["next"], follows)] if follows and "next" in text else []
    return needed
