#!/usr/bin/env python3
"""The ring of the second implementation: bit strings, polynomials modulo X^n + 1, and the size of
integers, written from the paper 01 alone in plain integers and lists.

usage: ring.py    check the two ways of multiplying against each other, and the paper's own examples
"""

import functools
import random
import struct


def width(m):
    """The number of trailing zeros of m: the width in bits of the values 0 to m - 1, m a power of two."""
    return len(bin(m)) - len(bin(m).rstrip("0"))


@functools.lru_cache(maxsize=2**16)
def to_bits(value, w):
    """The w low bits of a value as a text of 0 and 1, bit 0 first."""
    return format(value % 2**w, f"0{w}b")[::-1] if w else ""


@functools.lru_cache(maxsize=2**17)
def from_bits(text):
    """The value of a text of bits, bit 0 first."""
    return int(text[::-1], 2) if text else 0


def pack(w, coefficients):
    """The bytes of coefficients of w bits that lie one after another without gaps; the last byte is
    filled up with zeros."""
    text = "".join(to_bits(c, w) for c in coefficients)
    text += "0" * (-len(text) % 8)
    return bytes(from_bits(text[i:i + 8]) for i in range(0, len(text), 8))


def unpack(w, n, data, first=0):
    """n coefficients of w bits in a string of bytes, from its bit number first on."""
    text = "".join(to_bits(byte, 8) for byte in data)[first:]
    return [from_bits(text[i * w:(i + 1) * w]) for i in range(n)]


def centre(values, p):
    """Each value less p."""
    return [v - p for v in values]


def modulo(q, coefficients):
    """Each coefficient in 0 to q - 1."""
    return [c % q for c in coefficients]


def add(a, b):
    """The sum of two polynomials."""
    return [x + y for x, y in zip(a, b, strict=True)]


def subtract(a, b):
    """The difference of two polynomials."""
    return [x - y for x, y in zip(a, b, strict=True)]


def product_by_terms(a, b):
    """The product over the integers modulo X^n + 1, term by term: X^n is -1."""
    n = len(a)
    out = [0] * n
    for i, x in enumerate(a):
        for j, y in enumerate(b):
            if i + j < n:
                out[i + j] += x * y
            else:
                out[i + j - n] -= x * y
    return out


def product(a, b):
    """The same product by a single multiplication: at X = 2^32, or at 2^64 where the coefficients ask for
    it, a polynomial is an integer, and X^n + 1 is the integer that the product is taken modulo."""
    n, bound = len(a), len(a) * (largest(a) + 1) * (largest(b) + 1)
    code, bits = ("I", 32) if bound < 2**31 else ("Q", 64)
    half = 2**(bits - 1)
    if bound >= half:
        raise ValueError("coefficients too large for digits of 64 bits")
    # Half of X at every place: with it added, signed coefficients are digits of 0 to X - 1.
    offset = int.from_bytes(struct.pack(f"<{code}", half) * n, "little")

    def at_power(coefficients):
        digits = struct.pack(f"<{n}{code}", *[c + half for c in coefficients])
        return int.from_bytes(digits, "little") - offset

    # X^n is -1: what stands above it is taken away, by a shift, since a division of such numbers is slow.
    whole, power = at_power(a) * at_power(b), bits * n
    value = ((whole & (2**power - 1)) - (whole >> power) + offset) % (2**power + 1)
    return [digit - half for digit in struct.unpack(f"<{n}{code}", value.to_bytes(power // 8, "little"))]


def largest(coefficients):
    """The largest absolute value, 0 where there is none."""
    return max((abs(c) for c in coefficients), default=0)


def strictly_between(low, high, coefficients):
    """Whether every coefficient lies strictly between low and high."""
    return all(low < c < high for c in coefficients)


def check_itself():
    """The paper's examples of this part, and random products both ways; a failure is an exception."""
    assert pack(14, [1, 2]) == bytes.fromhex("01800000")
    assert modulo(2**13, product([0, 0, 0, 1], [0, 1, 0, 0])) == [8191, 0, 0, 0]
    assert centre([0, 7], 4) == [-4, 3]
    assert (width(2 * 4), width(2 * 2)) == (3, 2)
    rng = random.Random(1)
    for n in [1, 2, 3, 4, 8, 31, 256, 512]:
        for most in [0, 1, 4, 2**13, 2**16]:
            a, b = ([rng.randint(-most, most) for _ in range(n)] for _ in range(2))
            assert product(a, b) == product_by_terms(a, b), (n, most)
            assert product(a, [-most] * n) == product_by_terms(a, [-most] * n), (n, most)
    for w in range(17):
        values = [rng.randrange(2**w) for _ in range(37)]
        assert unpack(w, 37, pack(w, values)) == values, w
        assert unpack(w, 30, pack(w, values), 7 * w) == values[7:], w
    assert unpack(4, 2, bytes.fromhex("214365"), 12) == [4, 5]


if __name__ == "__main__":
    check_itself()
    print("the ring of the second implementation: products agree both ways, and so do the paper's examples")
