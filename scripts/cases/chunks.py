"""The chunk rule, by its definition: bit by bit."""

from functools import lru_cache

POLYNOMIAL = 0x3DA3358B4DC173
DEGREE = 53
WINDOW = 64


@lru_cache(maxsize=None)
def remainder(window):
    """The remainder of 64 bytes: double, add the next bit, and take the polynomial off where bit 53 is set."""
    rest = 0
    for byte in window:
        for place in range(7, -1, -1):
            rest = (rest << 1) | (byte >> place & 1)
            if rest >> DEGREE:
                rest ^= POLYNOMIAL
    return rest


def length_of(data, minimum, maximum, bits):
    """The length of the first chunk: the least one at which the low bits are zero, or the greatest."""
    for length in range(minimum, min(maximum, len(data)) + 1):
        if remainder(data[length - WINDOW:length]) % 2**bits == 0:
            return length
    return min(maximum, len(data))


def chunks(data, minimum, maximum, bits):
    """The chunks of some bytes."""
    cut = []
    while data:
        length = length_of(data, minimum, maximum, bits)
        cut.append(data[:length])
        data = data[length:]
    return cut
