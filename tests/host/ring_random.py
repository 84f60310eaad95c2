#!/usr/bin/env python3
"""The ring's calls beside the second implementation, on random and extreme contents and lengths, and on
lengths that do not fit.

usage: ring_random.py [SEED [CALLS]]
"""

import ctypes
import struct
import sys

from support import Guarded, ROOT, check, load_library, main, repeat

sys.path.insert(0, str(ROOT / "tests"))

from second import ring  # noqa: E402

SEED = 20170301
CALLS = 8000

MOST = 512

# Letters of struct for the elements of a slice.
BYTE, COEFFICIENT, INTEGER = "B", "H", "i"


def values(rng, n, low, high):
    """n values from low to high: random, the extremes, or zeros round a single one."""
    part = rng.random()
    if part < 0.6:
        return [rng.randint(low, high) for _ in range(n)]
    if part < 0.8:
        return [rng.choice((low, high))] * n
    if part < 0.9:
        return [rng.choice((low, high)) for _ in range(n)]
    place = rng.choice((0, n - 1, rng.randrange(n + 1)))
    return [rng.choice((low, 1, high)) if i == place else 0 for i in range(n)]


def factor_lengths(rng):
    """The lengths of a product's three slices, which mostly fit."""
    part = rng.random()
    if part < 0.85:
        return [4 * rng.randint(0, MOST // 4)] * 3
    if part < 0.92:
        return [rng.choice((1, 2, 3, 5, 255, 510, 511, 513, 514, 516, 1024, 2000))] * 3
    lengths = [4 * rng.randint(1, MOST // 4)] * 3
    lengths[rng.randrange(3)] += rng.choice((-1, 1, -4, 4, -lengths[0]))
    return lengths


# Each kind of call gives the numbers before its slices, its slices, which of them is the output, and what that is to hold, or
# None for a refusal.
def multiply_add(rng):
    small = rng.choice(((0, 7), (2**16 - 4, 2**16 - 1), (0, 2**16 - 1)))
    ranges = ((0, 2**16 - 1), (0, rng.choice((2**13, 2**14, 2**16)) - 1), small)
    lengths = factor_lengths(rng)
    lists = [values(rng, n, low, high) for n, (low, high) in zip(lengths, ranges)]
    slices = [(COEFFICIENT, one) for one in lists]
    n = lengths[0]
    if lengths != [n] * 3 or n > MOST or n % 4 != 0:
        return (), slices, 0, None
    return (), slices, 0, ring.modulo(2**16, ring.add(lists[0], ring.product(lists[1], lists[2])))


def string(rng, changes):
    """A string's number of coefficients, its width, its bytes, and by how much they are too many."""
    n = rng.randint(0, 40) if rng.random() < 0.5 else rng.randint(0, 600)
    # Now and then a width that is too large.
    w = rng.choice((17, 24, 31, 32, 33, 2**16, 2**32 - 1)) if rng.random() < 0.05 else rng.randint(1, 16)
    right = (min(w, 16) * n + 7) // 8
    size = max(0, right + rng.choice(changes)) if rng.random() < 0.2 else right
    return n, w, size, size - right


def pack(rng):
    n, w, size, over = string(rng, (-1, 1, 2))
    source = values(rng, n, 0, 2**16 - 1)
    slices = [(COEFFICIENT, source), (BYTE, values(rng, size, 0, 255))]
    return (w,), slices, 1, list(ring.pack(w, source)) if over == 0 and w <= 16 else None


def unpack(rng):
    n, w, size, over = string(rng, (-2, -1, 1, 2, 30))
    source = values(rng, size, 0, 255)
    slices = [(BYTE, source), (COEFFICIENT, values(rng, n, 0, 2**16 - 1))]
    return (w,), slices, 1, ring.unpack(w, n, source) if over >= 0 and w <= 16 else None


def signed_product(rng):
    n, w = rng.choice((0, 1, 2, 3, 5, 255, 256, 511, 512, 513, 600)), rng.choice((1, 2, 3, 9, 10, 11, 16, 33))
    p = rng.choice((0, 1, 2, 4, 1023, 1024, 1025, 2**16 - 1))
    right = (w * n + 7) // 8
    sizes = [max(0, right + rng.choice((0, 0, 0, 1, -1))) for _ in range(2)]
    strings = [values(rng, size, 0, 255) for size in sizes]
    slices = [(BYTE, one) for one in strings] + [(INTEGER, values(rng, n, -2**31, 2**31 - 1))]
    if n > MOST or w > 10 or p > 1024 or min(sizes) < right:
        return (w, p), slices, 2, None
    return (w, p), slices, 2, ring.product(*(ring.centre(ring.unpack(w, n, one), p) for one in strings))


def sizes_call(rng, library):
    """The largest absolute value and the interval, at its ends too; such a call refuses nothing."""
    bound = rng.choice((0, 1, 2048, 4096, 2**31 - 1))
    low, high = rng.choice(((-bound, bound), (-2**31, bound), (rng.randint(-9, 9), rng.randint(-9, 9))))
    ends = [x for x in (low - 1, low, low + 1, high - 1, high, high + 1, -2**31, 2**31 - 1) if -2**31 <= x < 2**31]
    xs = [rng.choice(ends) if rng.random() < 0.3 else rng.randint(min(low, high), max(low, high))
          for _ in range(rng.choice((0, 1, 2, 7, 256, 512)))]
    room, most = buffer(rng, INTEGER, xs), ctypes.c_uint32(77)
    answer = library.ring_sizes(room.pointer(), ctypes.c_size_t(len(xs)), ctypes.c_int32(low), ctypes.c_int32(high),
                                ctypes.byref(most))
    check(most.value == ring.largest(xs), f"ring_sizes: largest {most.value}, {len(xs)} numbers")
    check(answer == ring.strictly_between(low, high, xs), f"ring_sizes: between {low} and {high}: {answer}")
    return False


KINDS = {"ring_multiply_add": multiply_add, "ring_pack": pack, "ring_unpack": unpack,
         "ring_signed_product": signed_product}


def buffer(rng, code, content):
    """A guarded buffer of elements, at an address that fits them."""
    size = struct.calcsize(code)
    data = struct.pack(f"<{len(content)}{code}", *content)
    return Guarded(len(data), size * rng.randrange(8 // size), data)


def one_call(rng, library):
    """Makes one call; True where it was one that has to be refused."""
    name = rng.choice([*KINDS, "ring_sizes"])
    if name == "ring_sizes":
        return sizes_call(rng, library)
    numbers, slices, out, expected = KINDS[name](rng)
    buffers = [buffer(rng, code, content) for code, content in slices]
    words = [ctypes.c_uint32(number) for number in numbers]
    for room, (_, content) in zip(buffers, slices):
        null = not content and rng.random() < 0.5
        words += [None if null else room.pointer(), ctypes.c_size_t(len(content))]
    answer = getattr(library, name)(*words)
    what = f"{name}{numbers}, lengths {[len(content) for _, content in slices]}"
    refused = expected is None
    check(answer == refused, f"{what}: it answers {answer}")
    for i, (room, (code, content)) in enumerate(zip(buffers, slices)):
        wanted = content if refused or i != out else expected
        found = struct.unpack(f"<{len(content)}{code}", room.bytes())
        wrong = [k for k, value in enumerate(wanted) if found[k] != value]
        check(not wrong, f"{what}: slice {i} is not what is expected at {wrong[:4]}")
    return refused


def test():
    library = load_library("ring_calls")
    for name in [*KINDS, "ring_sizes"]:
        getattr(library, name).restype = ctypes.c_uint32
    seed, answers = repeat(one_call, library, SEED, CALLS)
    return (f"{len(answers)} calls of the ring agree with the second implementation, "
            f"{sum(answers)} of them refused (seed {seed})")


main(test)
