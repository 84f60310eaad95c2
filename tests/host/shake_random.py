#!/usr/bin/env python3
"""The two SHAKE calls beside Python's hashlib, on random lengths, places and contents.

usage: shake_random.py [SEED [CALLS]]
"""

from shake import KINDS, LIMIT, PAST_LIMIT, call
from support import Guarded, check, load_library, main, repeat

SEED = 20150804
CALLS = 20000


def length(rng, rate):
    """Mostly at or beside a multiple of the rate, where the padding and the blocks' ends are."""
    part = rng.random()
    if part < 0.55:
        return max(0, rate * rng.randint(0, 6) + rng.randint(-2, 2))
    if part < 0.90:
        return rng.randint(0, 700)
    if part < 0.99:
        return rng.randint(0, 6000)
    return rng.randint(0, 70000)


def first_place(rng, rate):
    """The start half of the time; else as far on as a length, round the limit, or anywhere."""
    part = rng.random()
    if part < 0.50:
        return 0
    if part < 0.97:
        return length(rng, rate)
    if part < 0.98:
        return LIMIT - length(rng, rate)
    return rng.randrange(2 ** rng.choice([21, 32, 63, 64]))


def content(rng, size):
    if rng.random() < 0.05:
        return bytes([rng.choice([0x00, 0xFF, 0x1F, 0x80])]) * size
    return rng.randbytes(size)


def one_call(rng, library):
    name, reference, rate = rng.choice(KINDS)
    message = content(rng, length(rng, rate))
    wanted, place = length(rng, rate), first_place(rng, rate)
    result = Guarded(wanted, rng.randrange(8))
    before, refused = result.bytes(), place + wanted > LIMIT
    status = call(library, name, message, place, result, rng.random() < 0.5, rng.randrange(8))
    what = f"{name}, {len(message)} bytes of input, {wanted} of output from place {place} on"
    check(status == (PAST_LIMIT if refused else 0), f"{what}: status {status}")
    found = result.bytes()
    expected = before if refused else reference(message).digest(place + wanted)[place:]
    if found != expected:
        at = next(i for i in range(wanted) if found[i] != expected[i])
        check(False, f"{what}: byte {at} is {found[at]:02x}, and should be {expected[at]:02x}")
    return refused


def test():
    library = load_library()
    seed, answers = repeat(one_call, library, SEED, CALLS)
    return f"{len(answers)} calls of SHAKE128 and SHAKE256 agree with hashlib, {sum(answers)} of them refused (seed {seed})"


main(test)
