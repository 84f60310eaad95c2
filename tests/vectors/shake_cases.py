#!/usr/bin/env python3
"""Makes the cases of the program shake_vectors: its standard input and the output that is expected,
computed by Python's hashlib.

usage: shake_cases.py          write crates/shake_vectors/stdin and crates/shake_vectors/stdout
       shake_cases.py --check  only say whether the two files are what would be written

stdin has one case after another: a byte that is 1 for SHAKE128 and 2 for SHAKE256, the input's length
and the output's length as two bytes each, the place of the output's first byte as four bytes, all low
byte first, and the input's bytes. stdout has a line for each case: the output in lower-case hexadecimal.
"""

import hashlib
import struct
import sys

from stored import content, main

# What a length of two bytes and the program's buffer for a line have room for.
MOST_INPUT = 65535
MOST_OUTPUT = 32767

SHAKE128, SHAKE256 = 1, 2
HASHES = {SHAKE128: hashlib.shake_128, SHAKE256: hashlib.shake_256}
RATES = {SHAKE128: 168, SHAKE256: 136}

# NIST's example values for FIPS 202: the input, and the first 32 bytes of the output.
NIST = [
    (SHAKE128, b"", "7f9c2ba4e88f827d616045507605853ed73b8093f6efbc88eb1a6eacfa66ef26"),
    (SHAKE128, b"\xa3" * 200, "131ab8d2b594946b9c81333f9bb6e0ce75c3b93104fa3469d3917457385da037"),
    (SHAKE256, b"", "46b9dd2b0ba88d13233b3feb743eeb243fcd52ea62b81b82b50c27646ed5762f"),
    (SHAKE256, b"\xa3" * 200, "cd8a920ed141aa0407a22d59288652e9d9f1a7ee0c1e7c1ca699424da84a904d"),
]


def cases():
    """Every case, as its kind, its input, its place and its output's length."""
    for kind, message, size in from_start():
        yield kind, message, 0, size

    # Places at the start, round whole blocks of either rate, and many blocks on.
    blocks = {r * n + d for r in RATES.values() for n in (1, 2) for d in (-1, 0, 1)}
    for kind, rate in RATES.items():
        for place in (0, 1, *sorted(blocks), 100 * rate - 1, 100 * rate, 65535, 65536, 1048576 - 2 * rate - 1):
            for size in (0, 1, rate - 1, rate, rate + 1, 2 * rate + 1):
                yield kind, content(rate + 5, kind + 14), place, size


def from_start():
    """The cases at place 0, as their kind, their input and their output's length."""
    for kind, message, first in NIST:
        if HASHES[kind](message).hexdigest(32) != first:
            sys.exit("shake_cases.py: hashlib does not give NIST's example value")
        yield kind, message, 512

    for kind, rate in RATES.items():
        for length in range(341):
            yield kind, content(length, kind), 32

        # Whole blocks of either rate, and a byte less and more.
        blocks = {r * n + d for r in RATES.values() for n in range(1, 11) for d in (-1, 0, 1)}
        for length in sorted(n for n in blocks if n > 340):
            yield kind, content(length, kind + 2), 32
        for length in (1000, 4096, 20000, 32767, 32768):
            yield kind, content(length, kind + 4), 64

        for length in (0, 1, 32, 64, rate - 1, rate, 3 * rate + 7):
            for size in (0, 1, 31, 64, rate - 1, rate, rate + 1, 2 * rate - 1, 2 * rate, 2 * rate + 1, 10 * rate):
                yield kind, content(length, kind + 6), size
        for length in (0, 32, 64, rate, 500):
            yield kind, content(length, kind + 8), 5000
        yield kind, content(200, kind + 10), 8192
        # The outputs that the scheme asks for.
        for length in (32, 64):
            for size in (448, 832, 896, 4032):
                yield kind, content(length, kind + 12), size

        for byte in (b"\x00", b"\xff"):
            for length in (1, 7, 8, 9, 64, rate - 2, rate - 1, rate, rate + 1, 2 * rate, 1000):
                yield kind, byte * length, 48


def make():
    """The two files' bytes."""
    stdin, stdout = bytearray(), bytearray()
    for kind, message, place, size in cases():
        if len(message) > MOST_INPUT or size > MOST_OUTPUT:
            sys.exit("shake_cases.py: a case is larger than the program's buffers")
        stdin += struct.pack("<BHHI", kind, len(message), size, place) + message
        stdout += HASHES[kind](message).digest(place + size)[place:].hex().encode() + b"\n"
    return bytes(stdin), bytes(stdout)


main("shake_vectors", make, __doc__)
