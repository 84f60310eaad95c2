#!/usr/bin/env python3
"""examples/tagged.c in every set, with the longest programme that it takes: its tag is 32 bytes of SHAKE256 of the
coins, a byte 05 and the programme; the programme comes back; and of all single-bit alterations of its ciphertext
none is taken, some being refused by the tag alone. A programme one byte longer is refused. In every set, too,
tagged_calls.c calls its functions."""

import hashlib
import re
import subprocess

from scheme import kindi
from support import ROOT, build_program, check, main, run, spread

TAG = 32
TOO_LONG = 3

COINS = b"coins of the programme"

# With these a copy past the end of a buffer ends the program, where the C library has that.
FORTIFIED = ["-U_FORTIFY_SOURCE", "-D_FORTIFY_SOURCE=2"]

# What the example prints last.
COUNTS = re.compile(r"refused by the library (\d+), by the tag (\d+); taken (\d+)\n")


def one_set(number):
    """How many alterations are refused by the library and by the tag."""
    s, words = kindi.SETS[number], [f"-DSET={number}"]
    run([build_program(ROOT / "tests" / "host" / "tagged_calls.c", f"tagged_calls_{number}", words + FORTIFIED)])
    program = build_program(ROOT / "examples" / "tagged.c", f"tagged_{number}", words)
    longest = "x" * (s.message - TAG)
    said = run([program, longest])
    coins = hashlib.shake_256(COINS).digest(s.coins)
    tag = hashlib.shake_256(coins + b"\x05" + longest.encode()).hexdigest(16)
    check(f" {TAG} bytes  {tag}..." in said, f"set {number}: the tag is not {tag}...\n{said}")
    by_library, by_tag, taken = map(int, COUNTS.search(said).groups())
    check((by_library + by_tag, taken) == (8 * s.ciphertext, 0), f"set {number}: not every bit is refused\n{said}")
    done = subprocess.run([program, longest + "x"], stdout=subprocess.PIPE, text=True)
    check(done.returncode == 1 and done.stdout.endswith(f"status {TOO_LONG}, refused\n"),
          f"set {number}: a programme that is too long has exit {done.returncode}\n{done.stdout}")
    return by_library, by_tag


def test():
    # The set that takes longest comes first.
    by_library, by_tag = map(sum, zip(*spread(one_set, sorted(kindi.SETS, reverse=True))))
    return f"of {by_library + by_tag} alterations the library refuses {by_library}, the tag {by_tag}; none is taken"


main(test)
