"""The kernels that are timed, each at a tiny size: digests of what they make, by the formats, the chunk rule and the jobs."""

from checks import Check
from chunks import chunks
from frames import REQUESTS, Message, Stream, u64
from jobs import Backup, Client, Forget, List, Restore, kept
from naming import name_of
from prunes import Prune, Upgrade
from store import Store
from texts import config_text, pack_of

INSTANCE = bytes([1]) * 16
SIZE = 1000
# The default config: the lengths of a chunk, the zeros where one ends, and the bytes of a pack.
RULE, PACK = (524_288, 8_388_608, 20), 16_777_216
# Of the store of small files: the bytes of a file, how many packs it is to have, about, and the least bytes of one.
FILE, PACKS, LEAST_PACK = 64, 50, 1024
HOSTS = ["desktop", "laptop", "mail", "phone", "server"]
SPAN, LAST, DAILY = 100_000_000, 10, 30


def plain(size):
    """Bytes of which each is five times the one before it, and seventeen."""
    made, byte = bytearray(), 1
    for _ in range(size):
        made.append(byte)
        byte = (byte * 5 + 17) % 256
    return bytes(made)


def random(size):
    """Bytes of a linear congruential generator, four of each state."""
    state, made = 1, b""
    for _ in range(size // 4):
        state = (state * 6364136223846793005 + 1442695040888963407) % 2**64
        made += (state >> 32).to_bytes(4, "big")
    return made


def last_of_frame(size):
    """The last byte of an object, read from the frame that puts it."""
    frame = Message(INSTANCE, 1, ("put", 1, "pack", bytes([7]) * 32, bytes([7]) * size)).frame()
    return Stream(frame, REQUESTS).next().what[-1][-1:]


def lengths(data):
    """The lengths of the chunks of some bytes."""
    return b"".join(u64(len(chunk)) for chunk in chunks(data, *RULE))


def rows(count):
    """Snapshots: each one's name, host, time and token."""
    for number in range(count):
        name = name_of(u64(number))
        yield name, HOSTS[name[0] % len(HOSTS)], int.from_bytes(name[1:5], "big") % SPAN, 1


def kept_of(count):
    """The name of the names of those of so many snapshots that the policy keeps."""
    return name_of(b"".join(sorted(kept(list(rows(count)), LAST, DAILY))))


def new_store(pack):
    store = Store()
    store.config = config_text(*RULE, pack)
    return store


def ended(store, job):
    """How a client of a store ends, and the last piece that it gave out."""
    client = Client(job, INSTANCE, "bench", 0)
    _, given = client.finish(store)
    return client.outcome, ([b""] + [what for word, what in given if word == "piece"])[-1]


def entries(count, step):
    """Of so many files each that many steps on, in folders of a thousand."""
    for number in range(count):
        folder = f"{number // 1000:05}"
        if number % 1000 == 0:
            yield [folder], None
        if number % step == 0:
            yield [folder, f"{number:08}"], b"%064d" % number


def backup_of(size):
    """The name of the snapshot of one file of so many bytes."""
    stored, _ = ended(new_store(PACK), Backup([(["random"], random(size))]))
    return stored.name


def restored_of(size):
    """The name of the last bytes that a restore of a file of so many random bytes gives."""
    store = new_store(PACK)
    stored, _ = ended(store, Backup([(["random"], random(size))]))
    return name_of(ended(store, Restore(stored.name))[1])


def half_forgotten(count):
    """A store with a backup of every other one of so many files, after one of all was forgotten, and the snapshot's name."""
    store = new_store(max(LEAST_PACK, count * FILE // PACKS))
    first, _ = ended(store, Backup(list(entries(count, 1))))
    second, _ = ended(store, Backup(list(entries(count, 2))))
    ended(store, Forget([first.name]))
    return store, second.name


# The jobs at a store of which half is forgotten, by their words.
AT_HALF = {"prune": Prune, "check": Check, "list": List, "upgrade": Upgrade}


def done_at_half(count, job):
    """The name of the words for how a job at such a store ended."""
    outcome, _ = ended(half_forgotten(count)[0], job())
    return name_of(outcome.text.encode())


def told(script, word, digest, size=SIZE):
    """A kernel's line, and what it prints."""
    script.line("kernel", word, size)
    script.prints(word, size, digest.hex())


def alone(script):
    """Those that need no store."""
    script.heading("kernels that need no store")
    told(script, "name", name_of(plain(SIZE)))
    told(script, "pack", name_of(pack_of([("content", plain(SIZE))])[0]))
    told(script, "frames", name_of(last_of_frame(SIZE)))
    told(script, "random", name_of(random(SIZE)[-64:]))
    told(script, "chunk", name_of(lengths(random(SIZE))))
    told(script, "rows", list(rows(SIZE))[-1][0])
    told(script, "keep", kept_of(SIZE))


def over_a_store(script):
    """Those that have clients of a store."""
    script.heading("kernels with a store")
    told(script, "backup", backup_of(SIZE))
    told(script, "restore", restored_of(SIZE))
    told(script, "forget", half_forgotten(SIZE)[1])
    for word, job in AT_HALF.items():
        told(script, word, done_at_half(SIZE, job))


ALL = [alone, over_a_store]
