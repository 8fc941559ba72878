"""What a store's server acknowledged, followed over its connections: which objects have to be there, and which mustn't."""
from dataclasses import dataclass, field

TICKET, LOCK, REFRESH, UNLOCK, PUT, DELETE, CONFIG, UPGRADE = 1, 2, 3, 4, 9, 10, 11, 12
TOKEN, DONE, REFUSED = 129, 130, 134
SNAPSHOT = 2
# The requests whose answers tell of what the ledger holds, and of what the config is.
OF_LEDGER, OF_CONFIG = (TICKET, LOCK, REFRESH, UNLOCK), (CONFIG, UPGRADE)


@dataclass
class Answers:
    """Of each object that was asked for: True where it was acknowledged, False where its deletion was, None where either may be."""

    objects: dict = field(default_factory=dict)
    tokens: set = field(default_factory=set)
    stored: set = field(default_factory=set)
    forgotten: set = field(default_factory=set)
    count: int = 0
    # Whether the last answer tells of the ledger, and of the config.
    of_ledger: bool = False
    of_config: bool = False
    parts: dict = field(default_factory=dict)
    pending: dict = field(default_factory=dict)

    def bodies(self, key, data):
        """The bodies of the frames that are whole now."""
        data = self.parts.get(key, b"") + data
        while len(data) >= 4 and len(data) >= 4 + int.from_bytes(data[:4], "big"):
            length = int.from_bytes(data[:4], "big")
            yield data[4:4 + length]
            data = data[4 + length:]
        self.parts[key] = data

    def asked(self, connection, data):
        """From now on what is asked may be done, or not."""
        for body in self.bodies(("asked", connection), data):
            self.pending.setdefault(connection, []).append(body)
            tag, key = body[0], (body[33:34], body[34:66].hex())
            if tag == PUT and self.objects.get(key) is not True:
                self.objects[key] = None
            if tag == DELETE:
                if self.objects.get(key):
                    self.objects[key] = None
                if key[0] == bytes([SNAPSHOT]):
                    self.forgotten.add(key[1])

    def replied(self, connection, data):
        """Whether an answer went out whole."""
        is_whole = False
        for body in self.bodies(("replied", connection), data):
            is_whole, self.count = True, self.count + 1
            self.answers(self.pending[connection].pop(0), body)
        return is_whole

    def answers(self, request, reply):
        tag, key = request[0], (request[33:34], request[34:66].hex())
        self.of_ledger = tag in OF_LEDGER and reply[0] != REFUSED
        self.of_config = tag in OF_CONFIG and reply[0] != REFUSED
        if tag == TICKET and reply[0] == TOKEN:
            self.tokens.add(int.from_bytes(reply[25:33], "big"))
        if tag == PUT and reply[0] == DONE:
            self.objects[key] = True
            if key[0] == bytes([SNAPSHOT]):
                self.stored.add(key[1])
                self.forgotten.discard(key[1])
        if tag == DELETE and reply[0] == DONE:
            self.objects[key] = False

    def due(self):
        """The snapshots that have to be there."""
        return self.stored - self.forgotten
