"""How the clients end where something is wrong: a store that is damaged, a lock that is gone, a server that makes no sense."""
import hashlib
import json
import re
import shutil

from connections import Answering, Said, Watched
from program import DEVICE, TICKET, Server, frame, matches, number, refused, token, told
from trying import chosen, holds, same, trial
from yards import FAILED, SMALL, Yard, entries, filled, in_store, is_clean, large_gets, restores, stored

JOBS = "backup snapshots restore forget prune check".split()


class Site:
    """A store with one snapshot, and the words of each job on it."""

    def __init__(self, yard, connections=99, *more):
        self.yard, self.root = yard, filled(yard.top / "from", {"d/y": b"def" * 20, "x": b"abc"})
        self.server = Server(yard.root, *more, connections=connections)
        self.name = stored(self.server.address, self.root)

    def __enter__(self):
        return self

    def __exit__(self, *_):
        self.server.kill()

    def words(self, job, address=None):
        shutil.rmtree(self.yard.top / "to", ignore_errors=True)
        more = {"backup": ["h", self.root], "restore": [self.name, self.yard.top / "to"], "forget": ["--keep-last", 1]}.get(job, [])
        return [job, address or self.server.address, *more]

    def ends(self, wanted, *jobs):
        """These jobs end so."""
        for job in jobs:
            same(told(*self.words(job)), wanted, job)

    def only(self, folder):
        """The one object in a folder of the store."""
        found = [it for it in self.yard.at(folder).rglob("*") if it.is_file()]
        same(len(found), 1, folder)
        return found[0]

    def again(self):
        self.server.kill()
        self.server = Server(self.yard.root, connections=99)


def name_of(data):
    return hashlib.sha256(data).hexdigest()


@in_store
def a_store_whose_ledger_is_lost(yard):
    with Site(yard) as site:
        site.server.kill()
        yard.at("ledger").rename(yard.at("away"))
        site.again()
        site.ends("1||refused 10\n", *JOBS)
        for words in (["locks"], ["unlock"], ["unlock", "--remove-all"]):
            same(told(words[0], site.server.address, *words[1:]), "1||refused 10\n", words)
        same(told("refresh", site.server.address, 1), "1||refused 10\n")
        site.server.kill()
        yard.at("away").rename(yard.at("ledger"))
        site.again()
        is_clean(site.server.address)


@in_store
def a_store_whose_config_is_lost_or_damaged(yard):
    config = yard.at("config").read_text()
    with Site(yard) as site:
        yard.removes("config")
        site.again()
        site.ends("1||refused 5\n", *JOBS)
        yard.writes("config", config.replace('"version":1', '"version":3'))
        site.again()
        site.ends("1||version\n", *JOBS)
        site.server.kill()
        for text in ("", config[:-1], config.replace("20", "33", 1)):
            yard.writes("config", text)
            same(told("serve", yard.root, "127.0.0.1:1"), FAILED, text)
        yard.writes("config", config)
        site.again()
        is_clean(site.server.address)


@in_store
def a_snapshot_that_does_not_read(yard):
    with Site(yard) as site:
        path = site.only("snapshots")
        good = path.read_bytes()
        path.write_bytes(good + b" ")
        site.ends(f"1||bad snapshot\nsnapshot {site.name}\n", "snapshots", "restore", "forget", "prune")
        site.ends(f"3|fault snapshot {site.name} name\n|", "check")
        same(told("forget", site.server.address, site.name), f"0|forgotten {site.name}\n|")
        for text, fault in ((b"{}", "unreadable"), (b"no text \xff", "unreadable")):
            yard.at(f"snapshots/{name_of(text)}").write_bytes(text)
            site.again()
            site.ends(f"3|fault snapshot {name_of(text)} {fault}\n|", "check")
            site.ends(f"1||bad snapshot\nsnapshot {name_of(text)}\n", "snapshots", "prune")
            yard.removes(f"snapshots/{name_of(text)}")
        newer = good.replace(b'"version":1', b'"version":3')
        yard.at(f"snapshots/{name_of(newer)}").write_bytes(newer)
        site.again()
        site.ends("1||version\n", "snapshots", "prune", "check", "forget")
        same(told("restore", site.server.address, name_of(newer), yard.top / "to"), "1||version\n")


@in_store
def an_index_that_does_not_read(yard):
    with Site(yard) as site:
        path = site.only("index")
        good = path.read_bytes()
        path.write_bytes(good + b" ")
        site.ends(f"1||bad index\nindex {path.name}\n", "backup", "restore", "prune")
        got = told(*site.words("check"))
        holds(got.startswith(f"3|fault index {path.name} name\n") and " unindexed\n" in got, got)
        path.unlink()
        site.again()
        tree = matches(told(*site.words("check")), r"3\|fault tree ([0-9a-f]{64}) unindexed\n\|")[0]
        site.ends(f"1||missing tree\ntree {tree}\n", "restore", "prune")
        matches(told(*site.words("backup")), r"0\|stored [0-9a-f]{64} 4 \d+\n\|")
        same(is_clean(site.server.address)[:3], ("2", "1", "1"))
        restores(site.server.address, site.name, yard.top / "to", entries(site.root))


@in_store
def a_pack_that_is_lost_or_damaged(yard):
    """Nothing wrong is given out, and the check names the pack, and the index that lists it."""
    with Site(yard) as site:
        path, index = site.only("data"), site.only("index").name
        good = path.read_bytes()
        blobs = json.loads(site.only("index").read_bytes())["packs"][0]["blobs"]
        first, last, tree = blobs[0]["id"], blobs[-1]["id"], int(blobs[-1]["offset"])
        turned = good[:1] + bytes([good[1] ^ 1]) + good[2:]
        cut = good[:tree] + b"X" + good[tree + 1:]
        for data, ends in ((turned, f"bad content\ncontent {first}"), (cut, f"bad tree\ntree {last}"), (good[:10], "refused 8")):
            path.write_bytes(data)
            site.ends(f"1||{ends}\n", "restore")
            if data != turned:
                # A prune reads the trees, and nothing of what stays where it is.
                site.ends(f"1||{ends}\n", "prune")
                same(site.only("index").name, index)
            got = told(*site.words("check"))
            holds(got.startswith(f"3|fault pack {path.name} name\nfault index {index} place\n"), got)
        path.unlink()
        site.again()
        site.ends(f"1||missing pack\npack {path.name}\n", "restore")
        got = told(*site.words("check"))
        holds(got.startswith(f"3|fault index {index} place\n") and " missing\n" in got, got)
        path.write_bytes(good)
        site.again()
        is_clean(site.server.address)
        restores(site.server.address, site.name, yard.top / "to", entries(site.root))


OBJECTS = "data index snapshots".split()


def brought_from_another_store(yard, files):
    """A folder with these files is backed up at another store, whose objects come into this one: the snapshot's name, and what it is of."""
    with Yard(is_store=True) as other:
        root = filled(other.top / "from", files)
        with Server(other.root, connections=9) as server:
            name = stored(server.address, root)
        for folder in OBJECTS:
            shutil.copytree(other.at(folder), yard.at(folder), dirs_exist_ok=True)
        return name, entries(root)


def packs_of(yard):
    """The packs of the store, by their names."""
    return sorted((it for it in yard.at("data").rglob("*") if it.is_file()), key=lambda it: it.name)


@in_store
def a_lost_pack_of_two_that_have_a_blob(yard):
    """Whichever of the two is lost, a prune ends with `missing pack` and changes nothing. Once the pack is back, all is whole, and the prune is done."""
    with Site(yard) as site:
        name, files = brought_from_another_store(yard, {"x": b"abc", "z": b"ghi"})
        packs = packs_of(yard)
        same(len(packs), 2, "packs")
        for path in packs:
            good = path.read_bytes()
            path.unlink()
            site.again()
            before = [entries(yard.at(folder)) for folder in OBJECTS]
            site.ends(f"1||missing pack\npack {path.name}\n", "prune")
            same([entries(yard.at(folder)) for folder in OBJECTS], before, "objects")
            path.write_bytes(good)
        site.again()
        matches(told("prune", site.server.address), r"0\|pruned \d+ \d+\n\|")
        same(is_clean(site.server.address)[0], "2", "snapshots")
        restores(site.server.address, site.name, yard.top / "to", entries(site.root))
        restores(site.server.address, name, yard.top / "to", files)


def with_turned(good, blob):
    """A pack in which the blob has another first byte."""
    start = good.index(blob)
    return good[:start] + bytes([good[start] ^ 1]) + good[start + 1:]


@in_store
def a_damaged_copy_of_two_of_a_blob_that_moves(yard):
    """If both copies are damaged, a prune ends with the blob and changes nothing. If only the copy at the lesser place is, the prune is done by the other one."""
    with Site(yard) as site:
        own = site.only("data")
        name, files = brought_from_another_store(yard, {"x": b"abc", "z": b"ghi"})
        packs = packs_of(yard)
        same(len(packs), 2, "packs")
        kept, gone, wanted = (name, site.name, files) if packs[0] == own else (site.name, name, entries(site.root))
        good = packs[1].read_bytes()
        for path in packs:
            path.write_bytes(with_turned(path.read_bytes(), b"abc"))
        site.again()
        same(told("forget", site.server.address, gone), f"0|forgotten {gone}\n|")
        before = [entries(yard.at(folder)) for folder in OBJECTS]
        site.ends(f"1||bad content\ncontent {name_of(b'abc')}\n", "prune")
        same([entries(yard.at(folder)) for folder in OBJECTS], before, "objects")
        packs[1].write_bytes(good)
        site.again()
        got = told(*site.words("check"))
        holds(got.startswith(f"3|fault pack {packs[0].name} name\n") and packs[1].name not in got, got)
        matches(told("prune", site.server.address), r"0\|pruned 2 \d+\n\|")
        same(is_clean(site.server.address)[0], "1", "snapshots")
        restores(site.server.address, kept, yard.top / "to", wanted)


@in_store
def content_that_no_index_names(yard):
    """`missing content`; the files before it are there, whole."""
    with Site(yard) as site:
        path = site.only("index")
        listed = json.loads(path.read_bytes())
        gone = [blob for blob in listed["packs"][0]["blobs"] if blob["type"] == "data"][-1]
        listed["packs"][0]["blobs"].remove(gone)
        text = json.dumps(listed, sort_keys=True, separators=(",", ":")).encode()
        path.unlink()
        yard.at(f"index/{name_of(text)}").write_bytes(text)
        site.again()
        site.ends(f"1||missing content\ncontent {gone['id']}\n", "restore", "prune")
        for name, data in entries(yard.top / "to").items() if (yard.top / "to").exists() else ():
            same(data, entries(site.root)[name])
        same(told(*site.words("check")), f"3|fault index {name_of(text)} place\nfault content {gone['id']} unindexed\n|")
        matches(told(*site.words("backup")), r"0\|stored [0-9a-f]{64} 1 \d+\n\|")
        restores(site.server.address, site.name, yard.top / "to", entries(site.root))


@trial
def a_job_whose_lock_is_removed_is_fenced():
    """A backup, a forget and a prune whose connection is cut off before each of their requests, and whose lock is removed then."""
    for job in ("backup", "forget", "prune"):
        with Yard(*SMALL, is_store=True) as yard, Site(yard, 9999) as site:
            found = []
            count = removed_before(site, job, 1 << 30)[1]
            for stop in chosen(range(1, count), 5):
                got = removed_before(site, job, stop)[0]
                found.append(got)
                holds(got in ("1||fenced\n", "0||") or re.match(r"0\|(stored|forgotten|pruned) ", got), f"{job}, cut off before request {stop}: {got}")
                same(told("locks", site.server.address), "0||", f"{job}, cut off before request {stop}")
                is_clean(site.server.address)
            holds("1||fenced\n" in found and count > 4, f"{job} ended {found}")


def removed_before(site, job, stop):
    """The same of a job that has something to do."""
    filled(site.root, {"x": b"abc%d" % stop})
    site.name = stored(site.server.address, site.root)
    if job == "prune":
        same(told("forget", site.server.address, site.name), f"0|forgotten {site.name}\n|")
    return meets_removal(site, job, stop)


def meets_removal(site, job, stop):
    """A job whose connection is cut off before this request, and goes on when all locks are removed: what it tells, and how many
    requests it made."""
    met = []

    def before(at, _):
        if at == stop and not met:
            met.append(at)
            return False
        return True
    with Watched(site.server.port, before) as line:
        line.takes = removing(line, site, met)
        got = told(*site.words(job, line.address), "--retry", 1)
        return got, line.count


def removing(line, site, met):
    """How the line takes a connection: the second one is let through once all locks are removed."""
    takes, done = line.takes, []

    def run(client):
        if met and not done:
            done.append(told("unlock", site.server.address, "--remove-all"))
        takes(client)
    return run


@trial
def a_server_that_makes_no_sense():
    """What is no frame is `malformed`, and so is a reply that is none; a connection that ends before one is whole is `read failed`."""
    with Yard(is_store=True) as yard, Site(yard) as site:
        single = [["locks"], ["refresh", 1], ["unlock"]]
        malformed = (b"\xff" * 4, b"\0\0\0\x18", frame(1), frame(135), frame(134, b"\x0f"), frame(129, b"\0"))
        for said in (*malformed, b"", bytes.fromhex(token(1))[:20]):
            for words in [site.words(job, "A") for job in JOBS] + [[words[0], "A", *words[1:]] for words in single]:
                with Said(said) as server:
                    words[1] = server.address
                    same(told(*words), "1||malformed\n" if said in malformed else "1||read failed\n", f"{words[0]}, told {said!r}")


@trial
def a_server_whose_replies_are_of_others():
    """A reply of another sort is `badreply`. One to another number, or to another client, is passed over, and the next one is waited for."""
    with Yard(is_store=True) as yard, Site(yard) as site:
        for change in ((132, 0, 0), (129, 1, 0), (129, 0, 1)):
            def answers(_, request, change=change):
                instance, sequence = request[5:21], int.from_bytes(request[21:29], "big")
                other = frame(change[0], bytes(8), sequence=sequence + change[1], instance=bytes([instance[0] ^ change[2]]) + instance[1:])
                return other + (frame(134, b"\5", sequence=sequence, instance=instance) if change[0] == 129 else b"")
            wanted = "badreply" if change[0] == 132 else "refused 5"
            for words in [site.words(job, "A") for job in JOBS] + [["locks", "A"], ["refresh", "A", 1], ["unlock", "A"]]:
                with Answering(answers) as server:
                    words[1] = server.address
                    same(told(*words), f"1||{wanted}\n", words[0])


@in_store
def a_client_that_is_gone_before_its_reply(yard):
    """The server says so, and serves the next."""
    gets = large_gets(yard)
    with Server(yard.root, connections=2) as server:
        with server.paused():
            client = server.connected(gets)
            client.close()
        same(server.asked(TICKET), token(1))
        matches(server.end(), r"1\|\|(write|read) failed\n")


@in_store
def a_clients_requests_of_each_code(yard):
    """Refused as they have to be, each by a server that goes on."""
    given, zero = b"\1", bytes(32)
    asks = ((frame(2, number(9), b"\0", number(0), b"\1a"), 2), (frame(3, number(9), number(0)), 2), (frame(7, b"\0", zero), 5),
            (frame(8, zero, bytes(4), bytes(3) + given), 5), (frame(8, zero, bytes(4), bytes(4)), 1), (frame(9, number(9), b"\0", zero, b"abc"), 2),
            (frame(10, number(9), b"\0", zero), 2))
    with Server(yard.root, connections=len(asks) + 1) as server:
        for ask, code in asks:
            same(server.asked(ask.hex()), refused(code), ask.hex())
        same(server.asked(TICKET), token(1))
        same(server.end(), "0||")
    yard.removes("ledger")
    yard.serves(TICKET, "0||", DEVICE)
