#!/usr/bin/env python3
"""Writes a script of so many events of a hundred clients, and what it prints by the reference of the cases.

Usage: bench/world.py EVENTS SCRIPT WANTED. All clients start, backups of a file and lists by turns; then messages are delivered,
in an order in which each comes late or again; and the last line is a report.
"""
import sys
from pathlib import Path

sys.dont_write_bytecode = True
sys.path.insert(0, str(Path(__file__).resolve().parents[1] / "scripts/cases"))

from plays import Player

CLIENTS = 100


class Script:
    """The lines of a script, and a player that has run them."""

    def __init__(self):
        self.lines, self.player = [], Player()

    def line(self, line):
        """One line more: what it prints."""
        self.lines.append(line)
        return self.player.run(len(self.lines), line.encode())

    def starts(self, number):
        """A client starts."""
        if number % 2:
            return self.line("start list")
        content = b"%05d" % number
        self.line(f"file {content.decode()} {content.hex()}")
        return self.line("start backup bench 0")


def main():
    events, to, wanted = int(sys.argv[1]), Path(sys.argv[2]), Path(sys.argv[3])
    script = Script()
    for number in range(CLIENTS):
        script.starts(number)
    for event in range(CLIENTS, events):
        script.line(f"deliver {event * 31 % len(script.player.messages)}")
    wanted.write_text(script.line("report"))
    to.write_text("\n".join([*script.lines, ""]))


main()
