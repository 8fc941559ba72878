"""Connections that mean no good, by the hundred: chance bytes, halves of frames, frames that promise much, and clients that are slow. What the
server holds of memory and of open files stays bounded, and behind them a backup goes as always."""
import random
import socket
import struct
from pathlib import Path

from program import TICKET, Server, frame, number, rest_of
from trying import OPTIONS, awaits, holds, same, trial
from yards import Yard, entries, filled, gives_back, in_store, is_clean

MOST = 26_214_400


def memory_of(process, word):
    """What a process holds: VmRSS now, VmHWM at most, in KiB; None once it has ended."""
    status = Path(f"/proc/{process.pid}/status").read_text()
    return next((int(line.split()[1]) for line in status.splitlines() if line.startswith(word)), None)


def memory(server, word):
    """What the server's process holds, which has to run."""
    held = memory_of(server.process, word)
    holds(held is not None, "the server has ended")
    return held


def files(server):
    """How many files it has open."""
    return len(list(Path(f"/proc/{server.process.pid}/fd").iterdir()))


def hostile(chance):
    """The bytes of one such connection."""
    ticket, zero = bytes.fromhex(TICKET), bytes(32)
    return chance.choice((
        lambda: chance.randbytes(chance.randrange(2000)),
        lambda: ticket[:chance.randrange(len(ticket))],
        lambda: ticket + chance.randbytes(chance.randrange(200)),
        lambda: (25 + chance.randrange(200)).to_bytes(4, "big") + chance.randbytes(225),
        lambda: MOST.to_bytes(4, "big") + bytes(chance.randrange(3000)),
        lambda: (MOST + 1).to_bytes(4, "big") + bytes(100),
        lambda: b"GET / HTTP/1.1\r\nHost: here\r\n\r\n",
        lambda: b"\x16\x03\x01\x02\x00\x01\x00" + chance.randbytes(300),
        lambda: b"",
        lambda: frame(9, number(chance.randrange(9)), bytes([chance.randrange(5)]), zero, chance.randbytes(500)),
        lambda: frame(10, number(chance.randrange(9)), bytes([chance.randrange(5)]), chance.randbytes(32)),
        lambda: b"".join(frame(6, bytes([chance.randrange(3), 0]), sequence=at) for at in range(20)),
        lambda: frame(chance.randrange(256), chance.randbytes(chance.randrange(60))),
    ))()


def sends(server, data, chance):
    """Connects and sends; then it waits for the end, or goes away in one of several ways."""
    try:
        with server.connected(data) as client:
            way = chance.randrange(3)
            if way == 0:
                client.shutdown(socket.SHUT_WR)
                rest_of(client)
            elif way == 1:
                # The connection is reset.
                client.setsockopt(socket.SOL_SOCKET, socket.SO_LINGER, struct.pack("ii", 1, 0))
    except (ConnectionResetError, BrokenPipeError):
        pass


@trial(is_early=True)
def hostile_connections_by_the_hundred():
    count = 6000 if OPTIONS.is_long else 1500
    with Yard(is_store=True) as yard, Server(yard.root, connections=10**9, env={"ASAN_OPTIONS": "detect_leaks=0:quarantine_size_mb=1"}) as server:
        chance, root = random.Random(4), filled(yard.top / "from", {"x": b"abc" * 9999, "d/y": b""})
        server.process.stderr.close()
        open_before = files(server)
        gives_back(server.address, root, yard.top / "to")
        for at in range(count):
            sends(server, hostile(chance), chance)
            if at == count // 3:
                same(server.asked(TICKET)[:10], "0000002181")
                before = memory(server, "VmRSS:")
        same(server.asked(TICKET)[:10], "0000002181")
        awaits(lambda: files(server) == open_before, f"{open_before} open files, and not {files(server)}")
        after, most = memory(server, "VmRSS:"), memory(server, "VmHWM:")
        holds(after < before + 32_768, f"it has {after} KiB, and had {before}")
        holds(most < 512 * 1024, f"it had {most} KiB at most")
        gives_back(server.address, root, yard.top / "to")
        same(is_clean(server.address)[0], "2")
        same(entries(yard.top / "to"), entries(root))


@in_store
def a_frame_that_promises_much_takes_what_comes(yard):
    """As much memory as a frame may have, and no more, also when it comes byte by byte and stops."""
    with Server(yard.root, "--idle", 1, connections=13) as server:
        before = memory(server, "VmHWM:")
        for _ in range(10):
            with server.paused():
                client = server.connected(MOST.to_bytes(4, "big") + bytes(1000))
            with client:
                same(rest_of(client), b"")
        same(server.asked(TICKET)[:10], "0000002181")
        same(server.asked(frame(9, number(9), b"\0", bytes(32), bytes(1 << 20)).hex())[-2:], "02")
        most = memory(server, "VmHWM:")
        holds(most < before + 160 * 1024, f"it had {most} KiB at most, and {before} before")
        same(server.asked(TICKET)[:10], "0000002181")
        same(server.end(), "1||" + "read failed\n" * 10)


@in_store
def slow_clients_are_served(yard):
    """A request that comes byte by byte is answered, and so is one whose answer is read byte by byte."""
    with Server(yard.root, connections=2) as server:
        with server.connected() as client:
            for byte in bytes.fromhex(TICKET):
                client.sendall(bytes([byte]))
            client.shutdown(socket.SHUT_WR)
            came = b""
            while piece := client.recv(1):
                came += piece
        same(came.hex()[:10], "0000002181")
        same(server.asked(TICKET)[:10], "0000002181")
        same(server.end(), "0||")
