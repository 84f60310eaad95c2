#!/usr/bin/env python3
"""Times the program linkcheck on records of every kind and set that it answers, and on short ones of no
kind, beside the same calls of the library made from C (calls.c) with nothing read and nothing printed.

The program reads a file and writes to /dev/null; its time is that of the whole run, start included. The
two take turns, and the least time of each counts. The ratio is the program's time divided by the calls'.
"""

import subprocess
import sys
import tempfile
import time
from pathlib import Path
from random import Random

ROOT = Path(__file__).resolve().parents[1]

sys.path.insert(0, str(ROOT / "tests"))

from second import kindi, records  # noqa: E402

PROGRAM = ROOT / "target" / "bin" / "linkcheck"
CALLS = ROOT / "target" / "bench" / "calls"

TURNS = 9
# A run on short records that are refused takes little time, so it has more turns.
SHORT_TURNS = 25

# The nanoseconds that the calls of one turn take.
TURN_NS = 1e8

# The widths of the tables of timing.c.
LABEL, FIGURE = 44, 10


def program_ns(file, count):
    """The nanoseconds a record of one run of the program on the records in a file."""
    file.seek(0)
    began = time.monotonic_ns()
    subprocess.run([PROGRAM], stdin=file, stdout=subprocess.DEVNULL, check=True)
    return (time.monotonic_ns() - began) / count


def calls_ns(one, count):
    """The nanoseconds of the call that a record names."""
    done = subprocess.run([CALLS, str(count)], input=one, stdout=subprocess.PIPE, check=True)
    return float(done.stdout)


def check_status(one, status):
    """A figure of a record that is not answered as expected says nothing."""
    said = subprocess.run([PROGRAM], input=one, stdout=subprocess.PIPE, check=True).stdout
    if said != records.transcript(one) or set(records.statuses(said)) != {status}:
        sys.exit(f"bench: a record of kind {one[2]}, set {one[3]} is not answered with {status}")


def row(label, figures, ratio):
    print(f"| {label:<{LABEL}} |" + "".join(f" {one:>{FIGURE}} |" for one in (*figures, ratio)), flush=True)


def answered_row(label, one):
    check_status(one, 0)
    count = min(records.MOST_RECORDS, int(TURN_NS / calls_ns(one, 500)))
    with tempfile.TemporaryFile() as file:
        file.write(one * count)
        file.flush()
        turns = [(program_ns(file, count), calls_ns(one, count)) for _ in range(TURNS)]
    program, calls = map(min, zip(*turns))
    row(label, (f"{1e9 / program:.0f}", f"{1e9 / calls:.0f}"), f"{program / calls:.2f}")


def refused_row(label, one):
    """A record of no kind names no call, so there is nothing beside it."""
    check_status(one, 12)
    count = records.MOST_RECORDS
    with tempfile.TemporaryFile() as file:
        file.write(one * count)
        file.flush()
        program = min(program_ns(file, count) for _ in range(SHORT_TURNS))
    row(label, (f"{1e9 / program:.0f}", "-"), "-")


def main():
    for path, made in ((PROGRAM, "make target/bin/linkcheck"), (CALLS, "make bench")):
        if not path.is_file():
            sys.exit(f"bench: {path.relative_to(ROOT)} is missing: run {made}")
    print()
    row("records a second", ("linkcheck", "calls in C"), "time ratio")
    print(f"| {'-' * LABEL} |" + f" {'-' * (FIGURE - 1)}: |" * 3)
    for number, s in kindi.SETS.items():
        pair = records.KeyPair(number, Random(number).randbytes)
        (encrypt, decrypt), (encaps, decaps) = pair.message(s.message), pair.shared_key()
        bodies = {1: pair.seeds, 2: encrypt, 3: decrypt, 4: encaps, 5: decaps}
        for kind, body in bodies.items():
            name = records.KINDS[kind][0] + ", longest message" * (kind in (2, 3))
            answered_row(f"set {number}, {name}", records.record(kind, number, body))
    refused_row("refused: a record of 6 bytes of no kind", records.record(9, 1))


main()
