"""`vault serve`: folders that are served and those that aren't, who holds one, and connections that make no sense or say nothing."""
import fcntl
import os
import resource
import socket
import subprocess
import time
from itertools import pairwise

from program import DEVICE, TICKET, Server, frame, matches, number, read_frame, refused, rest_of, token, told
from tries_power_cuts import is_traced
from trying import OPTIONS, WAIT, holds, same
from yards import FAILED, in_folder, in_store, large_gets

DELETION = frame(10, number(9), b"\0", bytes([7] * 32)).hex()
NOWHERE = "127.0.0.1:0"
NOT_OURS = "192.0.2.1:1"  # an address of no machine


@in_store
def a_folder_is_served(yard):
    """The second ticket is token 2, since the folder kept the first."""
    yard.serves(TICKET, "0||", token(1))
    yard.serves(TICKET, "0||", token(2))


@in_store
def a_folder_is_served_to_who_makes_no_sense(yard):
    yard.serves("00000018", "1||malformed\n", "")
    yard.serves("0000", "1||malformed\n", "")
    yard.serves("ffffffff", "1||malformed\n", "")
    yard.serves(TICKET + "0000", "1||malformed\n", token(1))
    yard.serves(frame(12).hex(), "1||malformed\n", "")
    yard.serves(frame(1, b"\0").hex(), "1||malformed\n", "")


@in_store
def a_store_without_its_ledger_is_served(yard):
    yard.writes("ledger", "no ledger")
    yard.serves(TICKET, "0||", DEVICE)
    yard.has("ledger", "no ledger")
    yard.removes("ledger")
    yard.serves(TICKET, "0||", DEVICE)
    yard.lacks("ledger")


@in_store
def a_silent_client_of_a_folder_is_ended(yard):
    yard.serves("", "1||read failed\n", "", "--idle", 1, is_last=False)
    yard.serves(TICKET, "1||read failed\n", token(1), "--idle", 1, is_last=False)
    yard.serves(TICKET, "0||", token(2), "--idle", 1)


@in_store
def addresses_that_cannot_be_listened_to(yard):
    same(told("serve", yard.root, NOT_OURS), "1||not reached\n")
    with socket.create_server(("127.0.0.1", 0)) as taken:
        same(told("serve", yard.root, f"127.0.0.1:{taken.getsockname()[1]}"), "1||not reached\n")


@in_store
def a_port_that_the_system_chooses(yard):
    """The server writes the address with this port on a second line, before anybody connects."""
    for port in ("0", "00", "+0"):
        serve = [OPTIONS.program, "serve", yard.root, f"127.0.0.1:{port}"]
        with subprocess.Popen(serve, stdin=subprocess.DEVNULL, stdout=subprocess.PIPE, stderr=subprocess.PIPE, text=True) as server:
            try:
                same(server.stdout.readline(), "listening\n")
                address = matches(server.stdout.readline(), r"address (127\.0\.0\.1:[1-9]\d*)\n")[0]
                same(told("locks", address), "0||")
                same(server.communicate(timeout=WAIT), ("", ""))
            finally:
                server.kill()
            same(server.returncode, 0)


@in_store
def a_server_without_descriptors_waits_for_them(yard):
    """What the next connection needs is taken away while one is served, and given back: no connection is lost, and one line reports it."""
    with Server(yard.root, connections=2) as server:
        limits = resource.prlimit(server.process.pid, resource.RLIMIT_NOFILE)
        with server.connected(bytes.fromhex(TICKET)) as client:
            same(read_frame(client).hex(), token(1))
            resource.prlimit(server.process.pid, resource.RLIMIT_NOFILE, (3, limits[1]))
        time.sleep(0.5)
        resource.prlimit(server.process.pid, resource.RLIMIT_NOFILE, limits)
        same(server.asked(TICKET), token(2))
        same(server.end(), "1||read failed\n")


@in_store
def a_server_that_cannot_accept_waits_before_it_tries_again(yard):
    """A tenth of a second at least, each time; one line reports it."""
    is_traced()
    for words in ((), ("--at-once", 2)):
        log = yard.top / f"log-{len(words)}"
        before = ["strace", "-f", "-qq", "-ttt", "-o", log, "-e", "trace=accept4", "-e", "inject=accept4:error=EMFILE:when=1..5"]
        with Server(yard.root, *words, before=before) as server:
            with server.connected(bytes.fromhex(TICKET)) as client:
                holds(read_frame(client), f"no reply, {words}")
            same(server.end(), "1||read failed\n", words)
        times = [float(line.split()[1]) for line in log.read_text().splitlines() if "accept4(" in line]
        holds(len(times) >= 6, f"{len(times)} calls, {words}")
        holds(all(later - earlier >= 0.1 for earlier, later in pairwise(times[:6])), f"the calls were at {times}, {words}")


@in_store
def folders_that_are_none(yard):
    same(told("init", yard.at("config")), FAILED)
    same(told("serve", yard.at("config"), NOWHERE), FAILED)
    same(told("serve", yard.at("away"), NOWHERE), FAILED)
    yard.lacks("away")


@in_store
def a_folder_is_served_that_only_appends(yard):
    """A deletion under a token that was never issued: 2, or 14 where nothing is deleted."""
    yard.serves(DELETION, "0||", refused(2))
    yard.serves(DELETION, "0||", refused(14), "--append-only")
    yard.serves(TICKET, "0||", token(1), "--append-only")


@in_store
def words_of_serving(yard):
    for words in (["--idle", "18446744073709551616"], ["--idle", "-1"], ["--idle", "soon"], ["--append-only", "yes"], ["--connections", "0"],
                  ["--connections", "18446744073709551616"], ["--connections", ""], ["--retry", "1"]):
        same(told("serve", yard.root, NOWHERE, *words)[:3], "2||", words)
    for words in (["--idle", "0"], ["--idle", "18446744073709551615"], ["--idle", str(2**63 - 1)]):
        yard.serves("", "0||", "", *words)
    yard.serves(DELETION, "0||", refused(14), "--append-only", "--idle", "9")


@in_store
def connections_are_served_one_after_another(yard):
    with Server(yard.root, connections=2) as server:
        same(server.asked("0000001901"), "")
        same(server.asked(TICKET), token(1))
        same(server.end(), "1||malformed\n")


@in_store
def silent_clients_are_ended_and_the_next_is_served(yard):
    """The first says nothing, the second stops inside a frame; both stay. The third has asked before any of them is looked at."""
    with Server(yard.root, "--idle", 1, connections=3) as server:
        with server.paused():
            clients = [server.connected(sent) for sent in (b"", bytes([0, 0, 0, 25, 1]), bytes.fromhex(TICKET))]
            clients[2].shutdown(socket.SHUT_WR)
        same([rest_of(client).hex() for client in clients], ["", "", token(1)])
        for client in clients:
            client.close()
        same(server.end(), "1||read failed\nread failed\n")


@in_store
def a_client_that_takes_nothing_is_ended(yard):
    gets = large_gets(yard)
    with Server(yard.root, "--idle", 1, connections=2) as server:
        with server.paused():
            client = server.connected(gets)
        with client:
            same(server.asked(TICKET), token(1))
        same(server.end(), "1||write failed\n")


@in_store
def what_a_connection_began_the_next_does_not_end(yard):
    """Half a frame is none, and its other half over the next connection is none either."""
    whole = bytes.fromhex(TICKET)
    with Server(yard.root, connections=3) as server:
        same(server.asked(whole[:20].hex()), "")
        same(server.asked(whole[20:].hex()), "")
        same(server.asked(TICKET), token(1))
        same(server.end(), "1||malformed\nmalformed\n")


# Who holds a folder, and what of others stands in it.

# A leftover of a form that this program doesn't give: a name of 64 digits.
OTHERS = {"tmp/photo.jpg": "mine", "tmp/more/photo.vault-part": "mine", "tmp/photo.vault-part.jpg": "mine", "tmp/" + "ba78" * 16: "mine"}


def fills_tmp(yard):
    yard.makes("tmp/more")
    for name, text in OTHERS.items():
        yard.writes(name, text)
    yard.writes("tmp/config.vault-part", "half")


def has_tmp(yard):
    for name, text in OTHERS.items():
        yard.has(name, text)


@in_store
def a_server_removes_its_own_leftovers_alone(yard):
    fills_tmp(yard)
    same(told("serve", yard.root, NOT_OURS), "1||not reached\n")
    with open(yard.at("lock")) as held:
        fcntl.flock(held, fcntl.LOCK_EX)
        same(told("serve", yard.root, NOWHERE), FAILED)
    yard.has("tmp/config.vault-part", "half")
    yard.serves("", "0||", "")
    yard.lacks("tmp/config.vault-part")
    has_tmp(yard)
    yard.holds("tmp", 4)


@in_folder
def a_folder_that_is_no_store_is_not_served(yard):
    """`shelf failed`, since the folder is looked at before the address."""
    fills_tmp(yard)
    yard.makes("config", "ledger")
    same(told("serve", yard.root, NOT_OURS), FAILED)
    same(told("serve", yard.root, NOWHERE), FAILED)
    has_tmp(yard)
    yard.has("tmp/config.vault-part", "half")
    yard.holds("", 3)


@in_folder
def a_config_of_another_program_makes_no_store(yard):
    """As in `.git` or `.ssh`: nothing is made in the folder, and nothing is removed."""
    fills_tmp(yard)
    good = '{"chunk_bits":6,"chunk_max":128,"chunk_min":64,"id":"' + "0" * 32 + '","pack_target":1024,"version":1}'
    for text in ("[core]\n\tbare = false\n", "Host *\n", "", "{}", "mine", good[:-1], good.replace("1024", "1"), good + " " * 70_000):
        yard.writes("config", text)
        same(told("serve", yard.root, NOT_OURS), FAILED, text[:20])
        has_tmp(yard)
        yard.has("config", text)
        yard.has("tmp/config.vault-part", "half")
        yard.holds("", 2)


@in_folder
def a_config_or_a_ledger_makes_a_folder_a_store(yard):
    good = '{"chunk_bits":6,"chunk_max":128,"chunk_min":64,"id":"' + "0" * 32 + '","pack_target":1024,"version":1}'
    for text in (good, good.replace('"version":1', '"version":3')):
        yard.writes("config", text)
        yard.serves("", "0||", "")
    yard.removes("config")
    same(told("serve", yard.root, NOWHERE), FAILED)
    yard.writes("ledger", "mine")
    yard.serves("", "0||", "")
    yard.has("ledger", "mine")
    yard.has("lock", "")
    yard.holds("", 2)


@in_store
def one_server_at_a_time_holds_a_folder(yard):
    """The file of the lock stays the same one; a server that was killed leaves no lock."""
    yard.writes("lock", "mine")
    yard.writes("tmp/photo.jpg", "mine")
    os.link(yard.at("lock"), yard.at("twin"))
    with Server(yard.root) as server:
        for _ in range(2):
            same(told("serve", yard.root, NOWHERE), FAILED)
        same(server.asked(TICKET), token(1), "the first server goes on")
        same(server.end(), "0||")
    with Server(yard.root):
        same(told("serve", yard.root, NOWHERE), FAILED)
    for _ in range(2):
        yard.serves("", "0||", "")
    yard.has("lock", "mine")
    yard.has("tmp/photo.jpg", "mine")
    yard.writes("twin", "still the same file")
    yard.has("lock", "still the same file")


@in_store
def a_server_that_cannot_tell_serves_nobody(yard):
    with open("/dev/full", "w") as full:
        same(told("serve", yard.root, NOWHERE, stdout=full), "1||write failed\n")
    yard.serves(TICKET, "0||", token(1))
