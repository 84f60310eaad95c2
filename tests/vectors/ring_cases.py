#!/usr/bin/env python3
"""Makes the cases of the program ring_vectors: its standard input and the output that is expected,
computed by the second implementation.

usage: ring_cases.py          write crates/ring_vectors/stdin and crates/ring_vectors/stdout
       ring_cases.py --check  only say whether the two files are what would be written

stdin has one case after another: a head of 8 bytes, which are the kind, the width w, and in two bytes
each, low byte first, the number n of coefficients, p and a bound; then the body. A list has n
coefficients of two bytes each, low byte first. stdout has a line for each case: the answer's bytes in
lower-case hexadecimal.

kind  body                 answer
1     a list               its coefficients packed in w bits
2     (w n + 7) / 8 bytes  the list of the n coefficients of w bits
3     lists c, a, v        the list c + a (v - p) modulo X^n + 1 and 2^w; n is a multiple of 4
4     lists u, v           (u - p)(v - p) modulo X^n + 1, u and v taken modulo 2^w: n integers and their
                           largest absolute value in four bytes each, and a byte that is 1 where all
                           are strictly between -bound and bound; w is at most 10 and p at most 1024
5     lists x, y, z        the list x + y - z modulo 2^16
"""

import struct
import sys
from pathlib import Path

sys.path.insert(0, str(Path(__file__).resolve().parents[1]))

from second import ring  # noqa: E402
from stored import content, main  # noqa: E402

PACK, UNPACK, PRODUCT, SIGNED, SUM = range(1, 6)

# Round a byte, and the two degrees of the scheme.
COUNTS = (0, 1, 2, 3, 7, 8, 9, 15, 16, 17, 256, 512)

# The modulus's width and p: those of the scheme, and the ring's whole width.
MODULI = ((13, 2), (14, 4), (16, 4))


def words(values):
    """A list: two bytes a coefficient, low byte first."""
    return struct.pack(f"<{len(values)}H", *values)


def values(n, limit, seed):
    """n values below a limit, without a short period."""
    return [v % limit for v in struct.unpack(f"<{n}H", content(2 * n, seed))]


def single(n, place, value, other=0):
    """A list that is the same everywhere but at one place."""
    return [value if i == place else other for i in range(n)]


def case(kind, n, body, answer, w=0, p=0, bound=0):
    return struct.pack("<BBHHH", kind, w, n, p, bound) + body, answer


def pack_case(w, coefficients):
    return case(PACK, len(coefficients), words(coefficients), ring.pack(w, coefficients), w)


def unpack_case(w, n, data):
    return case(UNPACK, n, data, words(ring.unpack(w, n, data)), w)


def product_case(w, p, c, a, v):
    total = ring.add(c, ring.product(a, ring.centre(v, p)))
    return case(PRODUCT, len(c), words(c + a + v), words(ring.modulo(2**w, total)), w, p)


def signed_case(w, p, bound, u, v):
    n = len(u)
    product = ring.product(*(ring.centre(ring.modulo(2**w, x), p) for x in (u, v)))
    sizes = ring.largest(product), ring.strictly_between(-bound, bound, product)
    return case(SIGNED, n, words(u + v), struct.pack(f"<{n}iIB", *product, *sizes), w, p, bound)


def sum_case(c, x, y):
    total = ring.modulo(2**16, ring.subtract([c] * len(x), ring.add(x, y)))
    return case(SUM, len(x), words(x + y), words(total), p=c)


def bit_cases():
    """Every width at every count; the bits above the width, and those after the last coefficient, are
    not 0 and must not matter."""
    yield pack_case(14, [1, 2])
    yield unpack_case(14, 2, bytes.fromhex("01800000"))
    for w in range(1, 17):
        for n in COUNTS:
            size = (w * n + 7) // 8
            yield pack_case(w, values(n, 2**16, w))
            yield pack_case(w, values(n, 2**w, w + 20))
            yield pack_case(w, [2**16 - 1] * n)
            yield unpack_case(w, n, content(size, w + 40))
            yield unpack_case(w, n, b"\xff" * size)
        # A coefficient alone at each of nine places.
        for place in range(9):
            yield pack_case(w, single(9, place, 2**w - 1))
            yield unpack_case(w, 9, ring.pack(w, single(9, place, 1)))


def large_factors(n, q, seed):
    """Shapes of a factor modulo q, the common ones first."""
    return [values(n, q, seed), [q - 1] * n, single(n, n - 1, 1), values(n, 2**16, seed + 1), [0] * n,
            [1] * n, single(n, 0, 1), single(n, n - 1, q - 1), single(n, 1, q // 2)]


def small_factors(n, p, seed):
    """Shapes of a factor of values 0 to 2p - 1, the common ones first."""
    return [values(n, 2 * p, seed), [0] * n, [2 * p - 1] * n, single(n, n - 1, p + 1, p), [p] * n,
            single(n, 0, p + 1, p), single(n, n - 1, p - 1, p), single(n, 1, 0, p)]


def product_cases():
    # The paper's example: X^3 times X is -1.
    yield product_case(13, 2, [0] * 4, single(4, 3, 1), single(4, 1, 3, 2))
    for w, p in MODULI:
        for n in (4, 8, 12):
            starts = [0] * n, values(n, 2**w, n), [2**16 - 1] * n
            for i, a in enumerate(large_factors(n, 2**w, w)):
                for j, v in enumerate(small_factors(n, p, p)):
                    yield product_case(w, p, starts[(i + j) % 3], a, v)
        for n in (256, 512):
            c, large, small = values(n, 2**w, n), large_factors(n, 2**w, w), small_factors(n, p, p)
            for j in range(4):
                yield product_case(w, p, c, large[0], small[j])
                yield product_case(w, p, [0] * n, large[1], small[j])
            yield product_case(w, p, c, large[2], small[0])
            yield product_case(w, p, [2**16 - 1] * n, large[3], small[0])


def signed_cases():
    for w, p, bound in ((2, 2, 2048), (3, 4, 4096), (5, 16, 4096), (10, 512, 65535), (10, 1024, 65535), (10, 0, 65535)):
        for n in (4, 8, 12, 256, 512):
            least, most, some = [0] * n, [2**w - 1] * n, values(n, 2**w, n + w)
            yield signed_case(w, p, bound, some, values(n, 2**w, n + w + 1))
            yield signed_case(w, p, bound, values(n, 2**16, n + w + 2), some)
            yield signed_case(w, p, bound, least, least)
            yield signed_case(w, p, bound, least, most)
            yield signed_case(w, p, bound, most, most)
            if n < 256:
                for place in (0, 1, n - 1):
                    yield signed_case(w, p, bound, single(n, place, (p + 1) % 2**w, p % 2**w), some)
                    yield signed_case(w, p, bound, some, single(n, place, 0, p % 2**w))


def end_cases():
    """Products whose largest coefficient is at an end of the interval, or next to it."""
    w, p, n = 10, 512, 4
    yield signed_case(w, p, 0, [p] * n, [p] * n)
    yield signed_case(w, p, 1, [p] * n, [p] * n)
    for bound in (1, 2, 3, 100, 510):
        for target in (-bound - 1, -bound, -bound + 1, bound - 1, bound, bound + 1):
            for place in (0, 2, n - 1):
                # Times 1, which leaves it as it is, and times X^3, which moves it on and turns its sign.
                yield signed_case(w, p, bound, single(n, place, p + target, p), single(n, 0, p + 1, p))
                yield signed_case(w, p, bound, single(n, place, p + target, p), single(n, 3, p + 1, p))
    # A quarter of each q and beside it: times 16 + X, whose coefficient 1 is 16 high + low.
    for bound in (2048, 4096, 4095, 2049):
        for target in (-bound - 1, -bound, -bound + 1, bound - 1, bound, bound + 1):
            high, low = divmod(target, 16)
            yield signed_case(w, p, bound, [p + low, p + high, p, p], [p + 16, p + 1, p, p])
    yield signed_case(w, p, 65535, single(n, 2, 0, p), single(n, 0, p + 128, p))
    yield signed_case(w, p, 65535, single(n, 2, 1, p), single(n, 0, p + 128, p))


def sum_cases():
    for n in COUNTS:
        for c in (0, 1, 4, 65535):
            yield sum_case(c, *(values(n, 2**16, n + i + c) for i in range(2)))
        for c, *lists in ((65535, 0, 0), (0, 65535, 65535), (0, 65535, 1), (1, 0, 0), (32768, 32768, 32768)):
            yield sum_case(c, *([value] * n for value in lists))


def make():
    """The two files' bytes."""
    ring.check_itself()
    stdin, stdout = bytearray(), bytearray()
    for cases in (bit_cases, product_cases, signed_cases, end_cases, sum_cases):
        for given, answer in cases():
            stdin += given
            stdout += answer.hex().encode() + b"\n"
    return bytes(stdin), bytes(stdout)


main("ring_vectors", make, __doc__)
