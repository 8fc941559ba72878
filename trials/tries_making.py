"""`vault init` in folders in which something is already: a store is made beside it, or it is refused and nothing is changed."""
import fcntl
import os
import stat
import subprocess

from program import DEVICE, TICKET, Server, matches, token, told
from trying import OPTIONS, WAIT, same
from yards import CREATED, FAILED, SMALL, in_folder, in_store


def inits(yard, wanted, *words):
    """A store is to be made in the yard: what is told is this, or that it is created."""
    got = told("init", yard.root, *words)
    if wanted == CREATED:
        return matches(got, CREATED, "init")[0]
    same(got, wanted, "init")


def refuses_file(yard, name):
    """No store is made while a file has this name, and the file is left alone."""
    yard.writes(name, "mine")
    inits(yard, FAILED)
    yard.has(name, "mine")
    yard.holds("", 1)
    yard.removes(name)


def refuses_folder(yard, name):
    yard.makes(name)
    inits(yard, FAILED)
    yard.holds(name, 0)
    yard.holds("", 1)
    yard.at(name).rmdir()


@in_folder
def files_of_others_beside_a_new_store_stay(yard):
    yard.makes("data/deep/empty", "photos")
    yard.writes("photos/one.jpg", "mine")
    yard.writes("notes", "mine")
    inits(yard, CREATED)
    yard.has("photos/one.jpg", "mine")
    yard.has("notes", "mine")
    yard.holds("data/deep/empty", 0)
    yard.holds("data", 257)
    yard.has("lock", "")
    yard.holds("tmp", 0)
    yard.holds("", 9)


@in_folder
def a_folder_that_is_made_is_its_owners_alone(yard):
    """The store's folder, whatever the mask is; folders above it can be written by their owner alone, and one that is there keeps its mode."""
    for mask, above in ((0o000, 0o755), (0o022, 0o755), (0o077, 0o700)):
        store = yard.at(f"{mask}/of/store")
        run = subprocess.run([OPTIONS.program, "init", store], umask=mask, capture_output=True, timeout=WAIT)
        same(run.returncode, 0, run)
        same([stat.S_IMODE(it.stat().st_mode) for it in (store, store.parent, store.parent.parent)], [0o700, above, above])
    for number, end in enumerate(("/", "//", "/.", "/././")):
        store = yard.at(f"ends/{number}/store")
        run = subprocess.run([OPTIONS.program, "init", f"{store}{end}"], umask=0o022, capture_output=True, timeout=WAIT)
        same(run.returncode, 0, run)
        same([stat.S_IMODE(it.stat().st_mode) for it in (store, store.parent)], [0o700, 0o755], end)
    yard.root.chmod(0o750)
    inits(yard, CREATED)
    same(stat.S_IMODE(yard.root.stat().st_mode), 0o750)


@in_folder
def names_of_a_store_that_are_taken_refuse_it(yard):
    for name in ("data", "index", "snapshots", "tmp"):
        refuses_file(yard, name)
    for name in ("ledger", "lock"):
        refuses_folder(yard, name)


@in_folder
def files_under_tmp_refuse_a_store(yard):
    yard.makes("tmp/more")
    for name in ("tmp/photo.jpg", "tmp/more/photo.vault-part"):
        refuses_file(yard, name)


@in_folder
def files_under_data_refuse_a_store(yard):
    yard.makes("data/aa/bb")
    for name in ("data/photo.vault-part", "data/aa/photo.jpg", "data/aa/bb/photo.jpg"):
        refuses_file(yard, name)


@in_folder
def links_at_names_of_a_store_refuse_it(yard):
    yard.makes("away")
    for name, to, wanted in (("data", "away", FAILED), ("ledger", "nothing", FAILED), ("config", "nothing", "1||exists\n")):
        yard.at(name).symlink_to(to)
        inits(yard, wanted)
        same(os.readlink(yard.at(name)), to)
        if name != "config":
            yard.removes(name)
    yard.holds("away", 0)
    yard.lacks("nothing")
    yard.holds("", 2)


@in_folder
def a_making_that_was_cut_off_is_made_again(yard):
    yard.makes("tmp", "data/00", "data/01", "index")
    yard.writes("tmp/ledger.vault-part", "half")
    yard.writes("lock", "")
    inits(yard, CREATED)
    yard.holds("tmp", 0)
    yard.holds("data", 256)
    yard.removes("config")
    yard.writes("tmp/photo.jpg", "mine")
    inits(yard, CREATED)
    yard.has("tmp/photo.jpg", "mine")


@in_folder
def a_folder_with_any_config_is_a_store_already(yard):
    yard.makes("tmp")
    yard.writes("tmp/photo.vault-part", "mine")
    yard.writes("config", "mine")
    inits(yard, "1||exists\n")
    yard.has("config", "mine")
    yard.holds("", 2)
    yard.removes("config")
    yard.makes("config")
    inits(yard, "1||exists\n")
    yard.has("tmp/photo.vault-part", "mine")
    yard.holds("", 2)


@in_folder
def a_folder_that_is_held_is_made_no_store(yard):
    yard.writes("lock", "")
    with open(yard.at("lock")) as held:
        fcntl.flock(held, fcntl.LOCK_EX)
        inits(yard, FAILED)
    yard.holds("", 1)
    inits(yard, CREATED)
    with Server(yard.root):
        inits(yard, "1||exists\n")
        yard.removes("config")
        inits(yard, FAILED)
        yard.lacks("config")
    inits(yard, CREATED)


@in_folder
def a_store_is_made_with_its_numbers_once(yard):
    instance = inits(yard, CREATED, *SMALL)
    config = f'{{"chunk_bits":6,"chunk_max":128,"chunk_min":64,"id":"{instance}","pack_target":1024,"version":1}}'
    yard.has("config", config)
    same(yard.at("ledger").read_bytes().hex(), "0000000000000001" + "0000" * 2, "ledger")
    inits(yard, "1||exists\n", *SMALL)
    yard.has("config", config)


@in_store
def a_store_is_made_without_numbers(yard):
    numbers = r'\{"chunk_bits":20,"chunk_max":8388608,"chunk_min":524288,"id":"[0-9a-f]{32}","pack_target":16777216,"version":1\}'
    matches(yard.at("config").read_text(), numbers)


@in_folder
def each_store_has_an_instance_of_its_own(yard):
    first = inits(yard, CREATED)
    yard.removes("config")
    same(inits(yard, CREATED) == first, False, "two stores have one instance")


@in_folder
def a_store_whose_line_is_not_written_is_made(yard):
    with open("/dev/full", "w") as full:
        same(told("init", yard.root, stdout=full), "1||write failed\n")
    inits(yard, "1||exists\n")
    yard.holds("data", 256)


@in_folder
def numbers_out_of_bounds_make_no_store(yard):
    """They are refused before anything is opened."""
    few = (("--min", 63), ("--max", 8388609), ("--bits", 0), ("--bits", 33), ("--target", 1023), ("--target", 16777217))
    for word, value in (*few, ("--max", 524287), ("--min", 8388609)):
        same(told("init", yard.at("store"), word, value), "2||bad argument\n", f"{word} {value}")
    for value in ("-1", "soon", "18446744073709551616", ""):
        run = subprocess.run([OPTIONS.program, "init", yard.at("store"), "--min", value], capture_output=True, text=True, timeout=WAIT)
        same((run.returncode, run.stdout, run.stderr != ""), (2, "", True), f"--min {value!r}")
    yard.holds("", 0)
    same(matches(told("init", yard.at("store"), "--min", 64, "--max", 64, "--bits", 32, "--target", 1024), CREATED) != (), True)


@in_folder
def a_store_made_again_gives_no_number_twice(yard):
    """Its config is lost: `init` puts one, and keeps the ledger as it is, also one that is no ledger's."""
    inits(yard, CREATED)
    yard.serves(TICKET, "0||", token(1))
    was = yard.at("ledger").read_bytes()
    yard.removes("config")
    inits(yard, CREATED)
    same(yard.at("ledger").read_bytes(), was, "ledger")
    yard.serves(TICKET, "0||", token(2))
    yard.removes("config")
    yard.writes("ledger", "mine")
    inits(yard, CREATED)
    yard.has("ledger", "mine")
    yard.serves(TICKET, "0||", DEVICE)
