#!/usr/bin/env python3
"""Stands between a client and a server, and cuts the client's first connection off.

Usage: proxy.py PORT SERVER-PORT BYTES GO. Of the first connection so many bytes of the client's are passed on; then it is closed to
both sides, and `cut` is printed. Each later one waits until there is a file GO, and is passed on whole. `listening` is printed first.
"""
import socket
import sys
import threading
import time
from pathlib import Path


def closed(*streams):
    for stream in streams:
        try:
            stream.shutdown(socket.SHUT_RDWR)
        except OSError:
            pass


def passed_on(source, target, most):
    """Passes bytes on until the source ends, or so many have been."""
    left = most
    try:
        while left > 0:
            data = source.recv(min(left, 65536))
            if not data:
                break
            target.sendall(data)
            left -= len(data)
    except OSError:
        pass
    closed(source, target)
    return left == 0


def joined(client, port, most):
    """Joins a client with the server, and tells whether it was cut off."""
    with client, socket.create_connection(("127.0.0.1", port)) as server:
        replies = threading.Thread(target=passed_on, args=(server, client, float("inf")))
        replies.start()
        is_cut = passed_on(client, server, most)
        replies.join()
    return is_cut


def main(port, server_port, most, go):
    with socket.create_server(("127.0.0.1", port)) as listener:
        print("listening", flush=True)
        if joined(listener.accept()[0], server_port, most):
            print("cut", flush=True)
        while True:
            client = listener.accept()[0]
            while not go.exists():
                time.sleep(0.05)
            joined(client, server_port, float("inf"))


main(int(sys.argv[1]), int(sys.argv[2]), int(sys.argv[3]), Path(sys.argv[4]))
