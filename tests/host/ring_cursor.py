#!/usr/bin/env python3
"""Reading of bit strings from any bit on (02, No. 3), through the ring's call, beside the second implementation: bits 0 to 7 of
a byte, widths 0 to 16, counts round four and eight and longer ones, and strings that end with the last bit that is read or
later. A string ends where memory that cannot be read begins, or begins where it ends, and is as it was after the call. The byte
and the bit after the coefficients are those of a division.
"""

import ctypes
import mmap
import random
import struct
import sys

from support import Guarded, ROOT, check, load_library, main

sys.path.insert(0, str(ROOT / "tests"))

from second import ring  # noqa: E402

SEED = 20170302

BITS = range(8)
WIDTHS = range(17)
COUNTS = [*range(18), 23, 24, 25, 31, 32, 33, 63, 64, 65, 601]
# How many bytes a string has past those that the coefficients need: the reader looks at words of four and eight bytes.
MORE = (0, 1, 2, 3, 4, 7, 8, 9, 17)
# The bytes before the one that is begun in, the last of them past 2^16.
BEFORE = (0, 5, 70001)

# What the results hold before a call, to see one that is not written.
BYTE, BIT = 2**64 - 3, 2**32 - 3


class Walled:
    """Room for a string between memory that cannot be read: it ends, or begins, where that begins, or ends."""

    ROOM = 2**17

    def __init__(self):
        self.memory = mmap.mmap(-1, self.ROOM + 2 * mmap.PAGESIZE)
        self.begin = ctypes.addressof(ctypes.c_char.from_buffer(self.memory)) + mmap.PAGESIZE
        libc = ctypes.CDLL(None, use_errno=True)
        for wall in (self.begin - mmap.PAGESIZE, self.begin + self.ROOM):
            done = libc.mprotect(ctypes.c_void_p(wall), ctypes.c_size_t(mmap.PAGESIZE), 0)
            check(done == 0, "no memory that cannot be read")

    def put(self, data, first):
        at = self.begin if first else self.begin + self.ROOM - len(data)
        ctypes.memmove(at, data, len(data))
        return at


def read(library, walled, w, byte, bit, data, n, first=False):
    """The answer of the call, the coefficients, and the byte and the bit after them."""
    room, after, rest = Guarded(2 * n), ctypes.c_size_t(BYTE), ctypes.c_uint32(BIT)
    at = walled.put(data, first)
    answer = library.ring_unpack_from(ctypes.c_uint32(w), ctypes.c_size_t(byte), ctypes.c_uint32(bit), ctypes.c_void_p(at),
                                      ctypes.c_size_t(len(data)), room.pointer(), ctypes.c_size_t(n), ctypes.byref(after),
                                      ctypes.byref(rest))
    check(ctypes.string_at(at, len(data)) == data, f"width {w}, {n} from bit {bit} of byte {byte}: the string is written")
    return answer, list(struct.unpack(f"<{n}H", room.bytes())), after.value, rest.value


def agree(library, walled, rng):
    """Every bit, width, count and end; the number of calls."""
    calls = 0
    for bit in BITS:
        for w in WIDTHS:
            for n in COUNTS:
                for byte in BEFORE if n < 600 else BEFORE[:1]:
                    end = 8 * byte + bit + w * n
                    need = (end + 7) // 8
                    data = rng.randbytes(need + max(MORE))
                    wanted = 0, ring.unpack(w, n, data[byte:], bit), *divmod(end, 8)
                    places = [(0, True), *((more, False) for more in (MORE if byte < 600 else MORE[:1]))]
                    for more, first in places:
                        found = read(library, walled, w, byte, bit, data[:need + more], n, first)
                        check(found == wanted, f"width {w}, {n} from bit {bit} of byte {byte}, {more} bytes more: {found}")
                    calls += len(places)
    return calls


def in_turn(library, walled, rng):
    """One coefficient after another, each at the cursor that the one before handed back, is what one call reads; the calls."""
    calls = 0
    for bit in BITS:
        for w in WIDTHS:
            data = rng.randbytes((bit + 40 * w + 7) // 8)
            whole = read(library, walled, w, 0, bit, data, 40)
            at, values = (0, bit), []
            for i in range(40):
                answer, value, *at = read(library, walled, w, *at, data, 1)
                check(answer == 0 and at == list(divmod(bit + w * (i + 1), 8)), f"width {w}, after {i + 1} from bit {bit}: {at}")
                values += value
            check((0, values, *at) == whole, f"width {w}, from bit {bit}: one by one is not what is read at once")
            calls += 41
    return calls


def refusals(library, walled, rng):
    """What the string does not have, and what is no width, no bit or too many, is refused with nothing written; the calls."""
    cases = []
    for bit in BITS:
        for w in WIDTHS:
            for n in (0, 1, 7, 8, 9, 40):
                need = (bit + w * n + 7) // 8
                cases += [(w, byte, bit, need + byte - 1, n) for byte in (0, 3) if need > 0]
    cases += [(w, 0, 0, 300, 8) for w in (17, 18, 32, 2**16, 2**31, 2**32 - 1)]
    cases += [(1, 0, bit, 300, 8) for bit in (8, 9, 16, 2**31, 2**32 - 1)]
    cases += [(w, byte, 0, 30, 0) for w in (0, 16) for byte in (31, 32, 2**61, 2**63, 2**64 - 1)]
    cases += [(16, 2**64 - byte, 7, 300, 8) for byte in (1, 16, 17)]
    cases += [(0, 0, 0, 4, 65537), (0, 0, 0, 4, 65544)]
    for w, byte, bit, length, n in cases:
        found = read(library, walled, w, byte, bit, rng.randbytes(length), n)
        check(found == (1, [0xA5A5] * n, BYTE, BIT), f"width {w}, {n} from bit {bit} of byte {byte} in {length} bytes: {found[:1]}")
    fits = read(library, walled, 0, 0, 0, b"", 65536)
    check(fits == (0, [0] * 65536, 0, 0), "65,536 coefficients of width 0 are not read from nothing")
    return len(cases) + 1


def test():
    library = load_library("ring_calls")
    library.ring_unpack_from.restype = ctypes.c_uint32
    walled, rng = Walled(), random.Random(SEED)
    calls = [part(library, walled, rng) for part in (agree, in_turn, refusals)]
    return (f"{sum(calls)} readings from every bit of a byte, {calls[2] - 1} of them refused, agree with the second"
            f" implementation, and the byte and the bit after them with the division (seed {SEED})")


main(test)
