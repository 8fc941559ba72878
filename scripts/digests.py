#!/usr/bin/env python3
"""Prints the digests that the tests of repo_sha want (crates/base_tests/src/sha.rt), as Python's hashlib computes them.

Usage: scripts/digests.py
"""
from hashlib import sha256


def pattern(count):
    """So many bytes, of which each is its place modulo 251."""
    return bytes(i % 251 for i in range(count))


def cut(text, lengths):
    """The pieces of these lengths, one after another: shorter or empty ones where the text ends early."""
    pieces, at = [], 0
    for length in lengths:
        pieces.append(text[at : at + length])
        at += length
    return pieces


def folded(pieces):
    """The digest of the digests of these pieces, one after another."""
    return sha256(b"".join(sha256(piece).digest() for piece in pieces)).hexdigest()


TWO_BLOCKS = b"abcdbcdecdefdefgefghfghighijhijkijkljklmklmnlmnomnopnopq"
FOUR_WORDS = b"abcdefghbcdefghicdefghijdefghijkefghijklfghijklmghijklmnhijklmnoijklmnopjklmnopqklmnopqrlmnopqrsmnopqrstnopqrstu"
FEW = [70000, 1, 64, 0, 5000, 63, 119, 56, 55]

for text in (b"", b"abc", TWO_BLOCKS, FOUR_WORDS, b"a" * 1000000):
    print(sha256(text).hexdigest(), len(text))
print(folded(cut(pattern(180300), [i * 7 % 601 for i in range(601)])), "pieces of 0 to 600 bytes")
print(folded(cut(pattern(180300), FEW)), "the few pieces")
print(folded(cut(b"abcdef", [2, 10, 3])), "pieces of a text that ends early")
