"""Keys that all have one hash in a table that hashes by a folded multiplication from a fixed seed, as the kit's tables do where nothing else is said.

Such a hasher takes 16 bytes at a time as two numbers: the state is the folded product of (first xor state) and (second xor a constant). Where the first is the
state itself, the product is 0, whatever the second is. So a key is 16 bytes after which the state is 8 bytes of plain text, then that text, and then 8 bytes at will.
"""
from __future__ import annotations

import random

LETTERS = b"abcdefghijklmnopqrstuvwxyz0123456789"
# What may stand in a label of Markdown, a column of CSV and a text of a template.
PLAIN = frozenset(LETTERS + b"-_.;:!#$()+=?@^|~")
SEED = 0x243F_6A88_85A3_08D3
MULTIPLIER = 0x9E37_79B9_7F4A_7C15
WORD = (1 << 64) - 1
LENGTH = 32


def folded(left: int, right: int) -> int:
    product = left * right
    return (product & WORD) ^ (product >> 64)


def number(data: bytes) -> int:
    return int.from_bytes(data, "little")


def written(state: int, data: bytes) -> int:
    """The state after at most eight bytes."""
    if len(data) >= 4:
        read = number(data[:4]) | number(data[-4:]) << 32
    else:
        read = data[0] | data[len(data) // 2] << 8 | data[-1] << 16 if data else 0
    return folded(state ^ read, MULTIPLIER ^ (2 * len(data)))


def keys(count: int, state: int = SEED) -> list[bytes]:
    """So many keys that have one hash in a table whose state is this before a key is written."""
    chance, begun = random.Random(1), (state + LENGTH) & WORD
    while True:
        front = bytes(chance.choice(LETTERS) for _ in range(16))
        after = folded(number(front[:8]) ^ begun, number(front[8:]) ^ MULTIPLIER).to_bytes(8, "little")
        if PLAIN.issuperset(after):
            return [front + after + ending(place) for place in range(count)]


def ending(place: int) -> bytes:
    """Eight letters, others for each place."""
    return bytes(LETTERS[place // len(LETTERS) ** digit % len(LETTERS)] for digit in range(8))
