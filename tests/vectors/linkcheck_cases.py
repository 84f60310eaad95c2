#!/usr/bin/env python3
"""Makes the cases of the program linkcheck: its standard input and the output that is expected, computed
by the second implementation.

usage: linkcheck_cases.py          write crates/linkcheck/stdin and crates/linkcheck/stdout
       linkcheck_cases.py --check  only say whether the two files are what would be written

stdin has records of every kind and set, answered and refused, and ends with the paper's example, whose
last record is cut. stdout has a line for each record, and the last line. Both are as the paper 01 says.
"""

import itertools
import sys
from pathlib import Path

sys.path.insert(0, str(Path(__file__).resolve().parents[1]))

from second import kindi, records  # noqa: E402
from stored import CRATES, content, store  # noqa: E402

NO_SETS = (0, 5, 7, 255)
NO_KINDS = (0, 6, 9, 255)

# The refusals that the records of each kind have to meet in each set, with 0 for an answer.
STATUSES = {1: (0, 2), 2: (0, 2, 3), 3: (0, 2, 5, 6), 4: (0, 2), 5: (0, 2, 5, 7)}


def drawing(number):
    """Draws bytes of a set, other ones each time."""
    seeds = itertools.count(1000 * number)
    return lambda size: content(size, next(seeds))


def damaged(pair, body):
    """A body to decrypt with bits of its ciphertext changed, and with coefficients of C_1 and D raised."""
    s = pair.s
    for bit in (0, 4 * s.ciphertext + 3, 8 * s.ciphertext - 1):
        yield pair.flipped(body, bit)
    for (j, place), change in itertools.product(((0, 0), (s.l, s.n - 1)), (1, 2 * s.p, s.q // 2)):
        yield pair.raised(body, j, place, change)


def set_cases(number):
    """The kind and body of each record of a set."""
    s, draw = kindi.SETS[number], drawing(number)
    pair = records.KeyPair(number, draw)
    for seeds in (pair.seeds, bytes(3 * s.seed), b"\xff" * 3 * s.seed):
        yield 1, seeds
    for size in (0, 1, s.message // 2, s.message):
        encrypt, decrypt = pair.message(size)
        yield 2, encrypt
        yield 3, decrypt
    encaps, decaps = pair.shared_key()
    yield 4, encaps
    yield 5, decaps
    # A shared key's digest is a message; a message is no shared key's digest.
    yield 3, decaps
    yield 5, decrypt
    yield 3, pair.blank()
    yield from ((3, body) for body in damaged(pair, decrypt))
    yield from ((5, body) for body in damaged(pair, decaps))
    # A byte short and a byte long; in kind 2 the message is a byte too long, or the coins a byte short.
    for kind, body in ((1, pair.seeds), (2, encrypt), (3, decrypt), (4, encaps), (5, decaps)):
        yield kind, encaps[:-1] if kind == 2 else body[:-1]
        yield kind, body + b"\x00"
        yield kind, b""
        yield kind, draw(records.MOST_BODY)


def other_cases(bodies):
    """The kind, set and body of records of no set, at lengths that are right in set 1 and not, and of no
    kind."""
    for kind, number in itertools.product(records.KINDS, NO_SETS):
        yield kind, number, b"" if number % 2 == 0 else bodies[kind]
    for kind, number in itertools.product(NO_KINDS, (1, 4, 7)):
        yield kind, number, content(number * kind, kind)


def cases():
    """The kind, set and body of every record before the paper's example."""
    listed = [(kind, number, body) for number in kindi.SETS for kind, body in set_cases(number)]
    answered = {}
    for kind, number, body in listed:
        answered.setdefault((kind, number), body)
    return listed + list(other_cases({kind: answered[kind, 1] for kind in records.KINDS}))


def check_met(listed):
    """Every kind has to meet every refusal that it can, in every set."""
    met = {(kind, number, status) for kind, number, body in listed
           for _, status, _ in records.answers(records.record(kind, number, body))}
    expected = {(kind, number, status) for kind in STATUSES for number in kindi.SETS for status in STATUSES[kind]}
    expected |= {(kind, number, 1) for kind in records.KINDS for number in NO_SETS}
    expected |= {(kind, number, 12) for kind in NO_KINDS for number in (1, 4, 7)}
    assert met == expected, met ^ expected


def make():
    """The files' bytes, by name."""
    records.check_itself()
    listed = cases()
    check_met(listed)
    stdin = b"".join(records.record(*case) for case in listed) + records.EXAMPLE
    return {"stdin": stdin, "stdout": records.transcript(stdin)}


def main():
    files = store(CRATES / "linkcheck", make, __doc__)
    print(f"{records.tally(records.statuses(files['stdout']))}; "
          f"{len(files['stdin'])} bytes of stdin, {len(files['stdout'])} bytes of stdout")


main()
