"""Round trips of folders: chosen ones, and some by chance."""

import random

from texts import tree_text
from world_cases import restored, round_trip, stored

NAMES = ["a", "b", "c d", " e", "f.", ".g", "...", "é", "末", "z-_", "A", "0", "~", "a'b\"c", "\\", "\x7f", "😀"]


def noise(count, seed):
    return random.Random(seed).randbytes(count)


def chosen(script):
    """Files of many chunks, equal ones, names of all sorts."""
    for count in (1, 63, 64, 65, 127, 128, 129, 5_000):
        round_trip(script, f"a file of {count} bytes by chance", [(["x"], noise(count, count))], count < 5_000)
        round_trip(script, f"a file of {count} zeros", [(["x"], bytes(count))], count < 5_000)
    round_trip(script, "a chunk of 65 bytes", [(["x"], bytes(63) + b"\1\x40")], True)
    round_trip(script, "a chunk of the greatest length", [(["x"], bytes(63) + b"\1" * 4)], True, (64, 66, 6, 1_024))
    round_trip(script, "equal files, and one that begins so",
               [(["a"], noise(300, 1)), (["b"], noise(300, 1)), (["c"], noise(300, 1) + b"!")], True)
    round_trip(script, "names of all sorts", [([name], name.encode()) for name in sorted(NAMES, key=str.encode)])
    round_trip(script, "names of 255 bytes, and of control characters",
               sorted([(["n" * 255], b"n"), (["\x01\t\x1f\x08\x0c"], b"c"), (["末" * 85], None)], key=lambda entry: entry[0][0].encode()))
    round_trip(script, "a directory's tree beside it in its own bytes, twice",
               [(["d"], None), (["d", "e"], None), (["f"], tree_text([])), (["g"], tree_text([]))], True)
    files = [([f"{number:03}"], b"%d" % (number // 2)) for number in range(300)]
    round_trip(script, "300 files, two of each", files)


def numbers(script):
    """Other chunk rules, and other packs."""
    data = noise(6_000, 7)
    for rule in ((64, 64, 1, 1_024), (64, 128, 1, 1_024), (100, 1_000, 8, 2_000), (64, 8_388_608, 32, 1_024),
                 (1_024, 4_096, 10, 16_777_216), (64, 256, 6, 5_000)):
        round_trip(script, "a file by the numbers " + " ".join(map(str, rule)), [(["x"], data)], False, rule)


def folder(chance, depth):
    """Entries below a path, by chance, in the order of their components."""
    entries = []
    for name in sorted(chance.sample(NAMES, chance.randrange(5)), key=str.encode):
        if depth and chance.random() < 0.4:
            entries.append(([name], None))
            entries += [([name] + path, data) for path, data in folder(chance, depth - 1)]
        else:
            size = chance.choice([0, 0, 1, 3, 70, 200, 700])
            entries.append(([name], noise(size, chance.randrange(4))))
    return entries


def changed(chance, entries):
    """The same with some files changed and some gone."""
    kept = []
    for path, data in entries:
        if data is not None and chance.random() < 0.2:
            continue
        if data is not None and chance.random() < 0.3:
            data = data[:len(data) // 2] + noise(5, chance.randrange(100)) + data[len(data) // 2:]
        kept.append((path, data))
    return kept


def by_chance(script):
    """Folders that change between their backups, of two hosts that share a store."""
    for seed in range(40):
        chance = random.Random(seed)
        script.heading(f"folders by chance, {seed}")
        script.fresh()
        told, entries, places = seed % 4 == 0, folder(chance, 4), []
        for number in range(3):
            places.append(stored(script, entries, chance.choice("ab"), number, told))
            entries = changed(chance, entries)
        for place in places:
            restored(script, place, told)
        script.finish(script.start_list())
        script.report()


ALL = [chosen, numbers, by_chance]
