"""The token machine and the store machine: what a store says to each ask, and what it keeps then."""

from frames import PAGE
from naming import BLOB_LARGEST, CONFIG_LARGEST, LARGEST, name_of
from texts import GREATEST_VERSION, OtherVersion, Unreadable, config_text, read_config

FRESH, LIVE = 1_024, 256


class Refused(Exception):
    """A refusal with its code."""


class Ledger:
    """Numbers: fresh, live, dead, or not yet issued."""

    def __init__(self):
        self.next, self.fresh, self.live = 1, [], {}

    def ticket(self):
        if self.next == 2**64 - 1:
            raise Refused(13)
        if len(self.fresh) == FRESH:
            self.fresh.pop(0)
        self.fresh.append(self.next)
        self.next += 1
        return self.next - 1

    def lock(self, token, exclusive, time, host):
        """Whether the ledger changed."""
        if token in self.live:
            if self.live[token][0] == exclusive:
                return False
            raise Refused(9)
        if token not in self.fresh:
            raise Refused(2)
        if any(exclusive or row[0] for row in self.live.values()):
            raise Refused(3)
        if len(self.live) == LIVE:
            raise Refused(12)
        self.fresh.remove(token)
        self.live[token] = (exclusive, time, host)
        return True

    def refresh(self, token, time):
        if token not in self.live:
            raise Refused(2)
        exclusive, before, host = self.live[token]
        self.live[token] = (exclusive, max(before, time), host)

    def unlock(self, token):
        """Whether the ledger changed."""
        if token in self.fresh:
            self.fresh.remove(token)
            return True
        return self.live.pop(token, None) is not None

    def rows(self):
        return [(token, *self.live[token]) for token in sorted(self.live)]

    def copy(self):
        other = Ledger()
        other.next, other.fresh, other.live = self.next, list(self.fresh), dict(self.live)
        return other


class Store:
    """Objects, a config and a ledger on a device, of which a call can be armed to fail. What was read of the ledger and of
    the names of a kind is remembered, until the store is opened again or the device fails in a writing call."""

    def __init__(self):
        self.objects = {"pack": {}, "index": {}, "snapshot": {}}
        self.config, self.ledger = None, Ledger()
        self.armed, self.failures = None, 0
        self.remembered = set()
        self.append_only = False

    def read(self):
        """A reading call of the device."""
        if self.armed == "read":
            self.armed, self.failures = None, self.failures + 1
            raise Refused(10)

    def write(self, change):
        """A writing call, which makes this change."""
        armed = self.armed if self.armed in ("applied", "unapplied") else None
        if armed != "unapplied":
            change()
        if armed:
            self.armed, self.failures = None, self.failures + 1
            self.restart()
            raise Refused(10)

    def restart(self):
        """The store is opened again."""
        self.remembered = set()

    def needs(self, what):
        """The ledger, or the names of a kind, which are read of the device where they aren't remembered."""
        if what not in self.remembered:
            self.read()
            self.remembered.add(what)

    def save(self, ledger):
        def change():
            self.ledger = ledger
        self.write(change)
        self.remembered.add("ledger")

    def answer(self, ask):
        """What is said to an ask."""
        try:
            return getattr(self, "on_" + ask[0])(*ask[1:])
        except Refused as refused:
            return ("refused", refused.args[0])

    def read_ledger(self):
        self.needs("ledger")
        return self.ledger.copy()

    def on_ticket(self):
        ledger = self.read_ledger()
        token = ledger.ticket()
        self.save(ledger)
        return ("token", token)

    def on_lock(self, *row):
        ledger = self.read_ledger()
        if ledger.lock(*row):
            self.save(ledger)
        return ("done",)

    def on_refresh(self, token, time):
        ledger = self.read_ledger()
        ledger.refresh(token, time)
        self.save(ledger)
        return ("done",)

    def on_unlock(self, token):
        ledger = self.read_ledger()
        if ledger.unlock(token):
            self.save(ledger)
        return ("done",)

    def on_locks(self):
        return ("rows", self.read_ledger().rows())

    def on_list(self, kind, after):
        self.needs(kind)
        names = sorted(name for name in self.objects[kind] if after is None or name > after)
        return ("names", len(names) > PAGE, names[:PAGE])

    def on_get(self, kind, name):
        self.read()
        if name not in self.objects[kind]:
            raise Refused(5)
        if len(self.objects[kind][name]) > LARGEST[kind]:
            raise Refused(7)
        return ("bytes", self.objects[kind][name])

    def on_range(self, pack, offset, length):
        if not 1 <= length <= BLOB_LARGEST:
            raise Refused(1)
        self.read()
        if pack not in self.objects["pack"]:
            raise Refused(5)
        data = self.objects["pack"][pack]
        if offset + length > len(data):
            raise Refused(8)
        return ("bytes", data[offset:offset + length])

    def on_put(self, token, kind, name, data):
        if len(data) > LARGEST[kind]:
            raise Refused(7)
        if token not in self.read_ledger().live:
            raise Refused(2)
        if name_of(data) != name:
            raise Refused(6)
        self.write(lambda: self.objects[kind].setdefault(name, data))
        return ("done",)

    def on_delete(self, token, kind, name):
        if self.append_only:
            raise Refused(14)
        ledger = self.read_ledger()
        if token not in ledger.live:
            raise Refused(2)
        if not ledger.live[token][0]:
            raise Refused(4)
        self.write(lambda: self.objects[kind].pop(name, None))
        return ("done",)

    def on_config(self):
        self.read()
        if self.config is None:
            raise Refused(5)
        if len(self.config) > CONFIG_LARGEST:
            raise Refused(7)
        return ("bytes", self.config)

    def on_upgrade(self, token):
        ledger = self.read_ledger()
        if token not in ledger.live:
            raise Refused(2)
        if not ledger.live[token][0]:
            raise Refused(4)
        self.read()
        if self.config is None:
            raise Refused(5)
        try:
            *numbers, version, identity = read_config(self.config, GREATEST_VERSION)
        except (OtherVersion, Unreadable):
            raise Refused(1)
        if version < GREATEST_VERSION:
            raised = config_text(*numbers, version=GREATEST_VERSION, identity=identity)
            self.write(lambda: setattr(self, "config", raised))
        return ("done",)
