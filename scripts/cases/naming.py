"""Names, and the largest objects."""

from hashlib import sha256

LARGEST = {"pack": 25_317_379, "index": 8_388_608, "snapshot": 65_536}
CONFIG_LARGEST = 65_536
BLOB_LARGEST = 8_388_608


def name_of(data):
    return sha256(data).digest()
