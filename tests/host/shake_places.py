#!/usr/bin/env python3
"""The two SHAKE calls beside Python's hashlib from every place of the first two blocks, with every length up to two
blocks, both with two bytes more; at the limit of the output and past it; and at sums of place and length that are over
2^64. A refused call leaves its output as it was."""

from shake import KINDS, LIMIT, PAST_LIMIT, call
from support import Guarded, check, load_library, main, spread

MESSAGE = b"rye, 2 kg"

# A length of each kind: none, a byte, a block of either rate, all.
LENGTHS = [0, 1, 2, 135, 136, 137, 167, 168, 169, LIMIT]

# Places that no output reaches; plus a length many of them are over 2^64, and by no more than the limit.
FAR = [LIMIT + 1, 2**32, 2**32 + LIMIT, 2**63, 2**64 - LIMIT - 1, 2**64 - LIMIT, 2**64 - 169, 2**64 - 2, 2**64 - 1]


def round_blocks(library, name, rate, whole, place):
    """Every length from one place on; how many calls that is."""
    most = 2 * rate + 2
    for length in range(most + 1):
        result = Guarded(length, length % 8)
        what = f"{name}, {length} bytes from place {place} on"
        check(call(library, name, MESSAGE, place, result) == 0, f"{what}: refused")
        check(result.bytes() == whole[place:place + length], f"{what}: the bytes are not those of hashlib")
    return most + 1


def at_limit(library, name, whole):
    """Outputs that end at the limit, and past it; how many calls that is."""
    calls = 0
    for length in [*LENGTHS, LIMIT + 1]:
        for place in [LIMIT - length, LIMIT - length + 1, 0, *FAR]:
            if place < 0:
                continue
            result = Guarded(length, place % 8)
            before, fits = result.bytes(), place + length <= LIMIT
            what = f"{name}, {length} bytes from place {place} on"
            status = call(library, name, MESSAGE, place, result)
            check(status == (0 if fits else PAST_LIMIT), f"{what}: status {status}")
            check(result.bytes() == (whole[place:place + length] if fits else before), f"{what}: the output is wrong")
            calls += 1
    return calls


def test():
    library = load_library()
    jobs = []
    for name, reference, rate in KINDS:
        whole = reference(MESSAGE).digest(LIMIT)
        jobs += [lambda n=name, r=rate, w=whole, p=place: round_blocks(library, n, r, w, p) for place in range(2 * rate + 3)]
        jobs.append(lambda n=name, w=whole: at_limit(library, n, w))
    calls = sum(spread(lambda number: jobs[number](), range(len(jobs))))
    return f"{calls} calls from every place round two blocks, at the limit and past it agree with hashlib"


main(test)
