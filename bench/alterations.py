#!/usr/bin/env python3
"""Counts what the library answers where one bit of a ciphertext is changed: every bit in turn, in every set, for
an empty message, one of 300 bytes and the longest, and for a shared key. A sample of the alterations of each set
and call is compared with the second implementation. Prints Markdown tables; no part of the gate.

Which alterations are taken: a changed bit j of a coefficient of C or D adds 2^j to it or takes 2^j away, and the
coefficient's error with it. Where the error plus p stays within 0 to 2p - 1 = 2^w - 1, the ciphertext is the
encryption of another padded message with the same coins; where it does not, the refusal is 5. Errors are evenly
spread, so bit j stays in range in 1 - 2^j/2^w of all coefficients where j < w, and in none above: a coefficient
has w - 1 + 2^-w such bits on average. Each changes some of the w bits of the padded message that the coefficient
carries:

  - bits of the message: taken, as another message of the same length;
  - bits of the byte 01 behind the message: refused with 6 (unless it becomes 00 and the last byte of the message
    that is not 00 is 01: taken, as a shorter message);
  - bits of the zeros behind that: refused with 6, unless the last byte that is not 00 becomes 01: taken, as a
    longer message.
"""

import hashlib
import random
import sys
from collections import Counter
from fractions import Fraction
from pathlib import Path

ROOT = Path(__file__).resolve().parents[1]

sys.path.insert(0, str(ROOT / "tests" / "host"))

from scheme import compare, flipped, invoke, kindi, load  # noqa: E402
from support import check, main, spread  # noqa: E402

SEED = 20191104

# The length of the message that the documents give figures of.
USUAL = 300

# How many alterations of each set and call are compared with the second implementation.
SAMPLE = 200

# The alterations that one process tries at a time.
AT_A_TIME = 1024

# By the width w, the alterations that are taken on average: for each byte of the message, which has 8/w
# coefficients, and for each zero behind its mark. A zero becomes 01, as the last byte that is not 00, where its
# bit 0 is the highest bit that changes in its coefficient: for w = 2 that is always bit 0 of the coefficient, for
# w = 3 in turn bit 0, 2 and 1.
EXPECTED = {2: (Fraction(5), Fraction(1, 2)), 3: (Fraction(17, 3), Fraction(17, 24))}

# What else an altered ciphertext meets than a refusal.
SAME_LENGTH, OTHER_LENGTH, OTHERWISE = "taken, same length", "taken, other length", "taken otherwise"


def draw(label, size):
    """The same bytes at each run, which anybody can make; a product draws fresh random ones."""
    return hashlib.shake_256(label.encode()).digest(size)


class Case:
    """A ciphertext of a set and the call that opens it: of a message of a length, or of a shared key where the
    length is None."""

    def __init__(self, library, number, size):
        self.library, self.number, self.s, self.size = library, number, kindi.SETS[number], size
        keys = self.succeed("keygen", *(draw(f"seed {name}", self.s.seed) for name in ("mu", "gamma", "z")))
        self.secret_key, public_key = keys["secret_key"], keys["public_key"]
        if size is None:
            self.name = "decaps"
            made = self.succeed("encaps", public_key, draw("coins of the shared key", self.s.coins))
            self.right = {"key": made["key"]}
        else:
            self.name = "decrypt"
            coins, message = draw("coins of the message", self.s.coins), draw("message", size)
            made = self.succeed("encrypt", public_key, coins, message)
            self.right = {"coins": coins, "message": message.ljust(self.s.message, b"\x00")}
        self.ciphertext = made["ciphertext"]
        self.bits = 8 * self.s.ciphertext
        opened = self.succeed(self.name, self.secret_key, self.ciphertext)
        check(opened == self.right, f"set {number}: {self.name} does not give back what was encrypted")

    def arguments(self, name, *inputs):
        """The arguments of a call, for invoke and compare."""
        this = kindi.CALLS[name]
        rooms = {key: bytes(kindi.length(self.s, key)) for key in this.outputs}
        return (self.library, name, self.number, dict(zip(this.inputs, inputs, strict=True)), rooms,
                bytes(this.work(self.s)))

    def succeed(self, name, *inputs):
        found = invoke(*self.arguments(name, *inputs))
        check(found.status == 0, f"set {self.number}: {name} answers {found.status}")
        return found.outputs

    def altered(self, bit):
        return self.arguments(self.name, self.secret_key, flipped(self.ciphertext, bit))

    def outcome(self, bit):
        """The number where an altered ciphertext is refused, else how it is taken."""
        found = invoke(*self.altered(bit))
        if found.status:
            return found.status
        if self.size is None or found.outputs["coins"] != self.right["coins"] or found.outputs == self.right:
            return OTHERWISE
        check(bit % self.s.k < self.s.small, f"set {self.number}: bit {bit} is no low bit of a coefficient")
        return SAME_LENGTH if found.values["message_len"] == self.size else OTHER_LENGTH

    def expected(self):
        """How many alterations are taken on average."""
        of_message, of_zero = EXPECTED[self.s.small]
        return of_message * self.size + of_zero * (self.s.message - self.size)


def outcomes(cases):
    """How often each outcome comes, of all alterations of each case."""
    parts = [(case, first) for case in cases for first in range(0, case.bits, AT_A_TIME)]

    def some(place):
        case, first = parts[place]
        return Counter(case.outcome(bit) for bit in range(first, min(first + AT_A_TIME, case.bits)))

    counts = {case: Counter() for case in cases}
    for (case, _), found in zip(parts, spread(some, range(len(parts))), strict=True):
        counts[case] += found
    for case, found in counts.items():
        others = found.keys() - {5, 6 if case.name == "decrypt" else 7, SAME_LENGTH, OTHER_LENGTH, OTHERWISE}
        check(found.total() == case.bits and not others, f"set {case.number}, {case.name}: {found}")
    return counts


def compare_sample(cases):
    """A sample of the alterations of each case, all that a call leaves beside the second implementation; how
    often each status came."""
    rng = random.Random(SEED)
    items = [(case, bit) for case in cases for bit in rng.sample(range(case.bits), SAMPLE)]

    def one(place):
        case, bit = items[place]
        return compare(*case.altered(bit))

    return Counter(spread(one, range(len(items))))


def row(cells):
    return f"| {' | '.join(cell if isinstance(cell, str) else f'{cell:,}' for cell in cells)} |"


def table(heads, rows):
    return [row(heads), row(["--:"] * len(heads)), *map(row, rows), ""]


def message_row(case, found):
    taken = found[SAME_LENGTH] + found[OTHER_LENGTH]
    return [case.number, case.size, case.bits, found[5], found[6], taken, f"{case.bits / taken:.1f}",
            found[OTHER_LENGTH], f"{float(case.expected()):,.1f}"]


def key_row(case, found):
    return [case.number, case.bits, found[5], found[7], found[OTHERWISE]]


def tables():
    library = load()
    cases = [Case(library, number, size) for number, s in kindi.SETS.items() for size in (0, USUAL, s.message, None)]
    counts = outcomes(cases)
    messages = [case for case in cases if case.size is not None]
    keys = [case for case in cases if case.size is None]
    otherwise = sum(counts[case][OTHERWISE] for case in messages)
    sampled = compare_sample([case for case in cases if case.size in (USUAL, None)])
    told = ", ".join(f"{number} of status {status}" for status, number in sorted(sampled.items()))
    return "\n".join([
        "kindi_decrypt, each bit of one ciphertext changed in turn", "",
        *table(["set", "bytes of message", "bits", "refused with 5", "refused with 6", "taken as another message",
                "one in", "of them of another length", "expected"],
               [message_row(case, counts[case]) for case in messages]),
        f"taken with other coins, or as the same message: {otherwise}", "",
        "kindi_decaps, each bit of one ciphertext changed in turn", "",
        *table(["set", "bits", "refused with 5", "refused with 7", "taken"],
               [key_row(case, counts[case]) for case in keys]),
        f"{SAMPLE} alterations of each set and call agree with the second implementation: {told}"])


main(tables)
