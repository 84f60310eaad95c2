#!/usr/bin/env python3
"""The built program linkcheck beside the records of the second implementation: the paper's example; every
kind and set; bodies of every length that matters; headers and bodies that are cut, wrong marks, and what
stands after them; damaged ciphertexts; the greatest number of records; random mixtures. Inputs come at
once, as a file, record by record and in blocks of many sizes, down to single bytes, and output is read at
once and slowly. Each time the program has to exit with 0 and to write nothing on standard error. Its memory
must not grow with the input.

usage: linkcheck.py [SEED [INPUTS]]    the seed of the random mixtures, and how many
"""

import contextlib
import fcntl
import itertools
import os
import random
import re
import struct
import subprocess
import sys
import tempfile
import termios
import threading
import time
import zlib
from collections import Counter
from collections.abc import Callable
from dataclasses import dataclass
from pathlib import Path

from support import BUILD, Failure, ROOT, check, main, repeat, spread

sys.path.insert(0, str(ROOT / "tests"))

from second import kindi, records  # noqa: E402
from second.records import MARK, MOST_BODY, MOST_RECORDS, record  # noqa: E402

SEED = 20180514
INPUTS = 1000

PROGRAM = ROOT / "target" / "bin" / "linkcheck"

# Seconds after which a program that has not ended is taken for one that never does.
LONGEST = 60

# By how many KB the peak memory after many records may exceed that after few.
GROWTH = 128

# As the paper 01 has them; not taken from the second implementation.
EXAMPLE = bytes([0x4B, 0x4E, 0x09, 0x01, 0x00, 0x00, 0x4B, 0x4E, 0x02, 0x07, 0x00, 0x00, 0x4B, 0x4E, 0x01, 0x01,
                 0x01, 0x00, 0xAA, 0x4B, 0x4E])
EXAMPLE_OUTPUT = b"1 9 12 0 -\n2 2 1 0 -\n3 1 2 0 -\n4 - 11 0 -\nend 4\n"


# Ways to give an input: each runs the program and returns its standard output.

@contextlib.contextmanager
def started(stdin=subprocess.PIPE, stdout=None):
    """The running program and the file that its standard output goes to, where no other is named. At the
    end the program has to have ended well."""
    with tempfile.TemporaryFile() as out, tempfile.TemporaryFile() as errors:
        process = subprocess.Popen([PROGRAM], stdin=stdin, stdout=stdout or out, stderr=errors, bufsize=0)
        timer = threading.Timer(LONGEST, process.kill)
        timer.start()
        try:
            yield process, out
            status = process.wait()
        finally:
            process.kill()
            process.wait()
            timer.cancel()
            for pipe in (process.stdin, process.stdout):
                if pipe:
                    pipe.close()
        errors.seek(0)
        said = errors.read()
        check(not said, f"it writes on standard error: {said[:200]!r}")
        check(status >= 0, f"it ended by signal {-status}, or did not end in {LONGEST} s")
        check(status == 0, f"it exits with {status}")


def content_of(file):
    file.seek(0)
    return file.read()


def write(process, data):
    """Writes to the program; it may have stopped reading."""
    with contextlib.suppress(BrokenPipeError):
        process.stdin.write(data)


def wait_until_read(process):
    """Waits until the program has taken all that was written out of the pipe, or has ended."""
    while process.poll() is None:
        waiting, = struct.unpack("i", fcntl.ioctl(process.stdin, termios.FIONREAD, bytes(4)))
        if not waiting:
            return
        os.sched_yield()


def at_once(data):
    with started() as (process, out):
        write(process, data)
        process.stdin.close()
        process.wait()
        return content_of(out)


def left_open(data):
    """The input does not end: the program has to stop by itself."""
    with started() as (process, out):
        write(process, data)
        process.wait()
        return content_of(out)


def split(data):
    """The records of an input, all of them whole."""
    while data:
        end = records.HEADER + records.body_length(data)
        yield data[:end]
        data = data[end:]


def one_by_one(data):
    """Each line has to be there before the next record is given."""
    with started(stdout=subprocess.PIPE) as (process, _):
        lines = []
        for one in split(data):
            write(process, one)
            lines.append(process.stdout.readline())
        process.stdin.close()
        return b"".join(lines) + process.stdout.read()


def in_blocks(size):
    def give(data):
        with started() as (process, out):
            for start in range(0, len(data), size):
                write(process, data[start:start + size])
                wait_until_read(process)
            process.stdin.close()
            process.wait()
            return content_of(out)
    return give


@contextlib.contextmanager
def stored(data):
    """A file with some content, at its start."""
    with tempfile.TemporaryFile() as file:
        file.write(data)
        file.seek(0)
        yield file


def from_file(data):
    with stored(data) as file, started(file) as (process, out):
        process.wait()
        return content_of(out)


def read_slowly(data):
    """The output's pipe is full before it is read, in small pieces with pauses."""
    with stored(data) as file, started(file, subprocess.PIPE) as (process, _):
        time.sleep(0.1)
        pieces = []
        while piece := process.stdout.read(1 if len(pieces) < 500 else 4099):
            pieces.append(piece)
            time.sleep(0.0002)
        return b"".join(pieces)


WAYS = {"at once": at_once, "from a file": from_file, "in blocks of 50 bytes": in_blocks(50),
        "in blocks of 1000 bytes": in_blocks(1000)}


@dataclass(frozen=True)
class Case:
    """An input by name, the way to give it, and its output where that is not to be computed."""
    name: str
    data: bytes
    give: Callable = at_once
    output: bytes | None = None


def shown(line, at):
    """A line of output; of a long one its start, and what stands round a place in it."""
    text = line.decode(errors="backslashreplace")
    if len(text) < 80:
        return repr(text)
    return f"{text[:60]!r}..." if at < 50 else f"{text[:20]!r}...{text[at - 20:at + 20]!r}..."


def first_difference(found, expected):
    """The first line that differs, in words."""
    pairs = itertools.zip_longest(found.splitlines(True), expected.splitlines(True), fillvalue=b"")
    number, (line, right) = next((i, pair) for i, pair in enumerate(pairs, 1) if pair[0] != pair[1])
    at = len(os.path.commonprefix([line, right]))
    return f"line {number} is {shown(line, at)} and should be {shown(right, at)}, from character {at} on"


def compare(case):
    """Gives one input to the program; how many of its records have each status."""
    try:
        found = case.give(case.data)
        expected = records.transcript(case.data) if case.output is None else case.output
        if found != expected:
            check(False, first_difference(found, expected))
    except Failure as failure:
        # Several processes may fail, each with an input of its own.
        kept = BUILD / f"linkcheck_input_{zlib.crc32(case.data):08x}"
        kept.write_bytes(case.data)
        raise Failure(f"{case.name}, {len(case.data)} bytes, kept in {kept.relative_to(ROOT)}: {failure}") from failure
    return records.statuses(expected)


# What the inputs are made of

class Stock:
    """Records of a set under one key pair."""

    def __init__(self, number):
        self.number, self.s = number, kindi.SETS[number]
        rng = random.Random(f"{SEED}, set {number}")
        self.pair = records.KeyPair(number, rng.randbytes)
        messages = [self.pair.message(size) for size in (self.s.message, rng.randrange(2, self.s.message), 1, 0)]
        shared = self.pair.shared_key()
        # A body of each kind whose call answers.
        self.bodies = {1: self.pair.seeds, 2: messages[0][0], 3: messages[0][1], 4: shared[0], 5: shared[1]}
        answered = list(self.bodies.items())
        for encrypt, decrypt in messages[1:]:
            answered += [(2, encrypt), (3, decrypt)]
        answered.append((3, shared[1]))
        refused = [(3, self.pair.blank()), (5, messages[1][1]), (2, messages[0][0] + b"\x00"), (1, b"")]
        refused += [(kind, self.pair.raised(self.bodies[kind], 0, 0, 2 * self.s.p)) for kind in (3, 5)]
        self.answered = [self.record(*one) for one in answered]
        self.refused = [self.record(*one) for one in refused]
        # The second implementation keeps what it has answered, for each process that begins after this.
        met = [{status for one in listed for _, status, _ in records.answers(one)}
               for listed in (self.answered, self.refused)]
        check(met == [{0}, {2, 3, 5, 6, 7}], f"set {number}: the records of the stock have {met}")

    def record(self, kind, body):
        return record(kind, self.number, body)

    def one_of_each(self):
        """A record of each kind, answered."""
        return b"".join(itertools.starmap(self.record, self.bodies.items()))


def header(kind, number, size):
    """A header that announces a body of any length, and no body."""
    return MARK + struct.pack("<BBH", kind, number, size)


SHORT = record(1, 7)

# Two records that must be answered where reading has not ended.
AFTER = SHORT + record(9, 1, b"\x4b\x4e")


# The parts of the test: each gives the inputs that it makes of the stocks of all sets.

def paper(stocks):
    for way, give in WAYS.items():
        yield Case(f"the paper's example {way}", EXAMPLE, give, EXAMPLE_OUTPUT)
        yield Case(f"empty input {way}", b"", give, b"end 0\n")
    yield Case("the paper's example in single bytes", EXAMPLE, in_blocks(1), EXAMPLE_OUTPUT)
    yield Case("a record of kind 0", record(0, 0), at_once, b"1 0 12 0 -\nend 1\n")


def every_kind(stocks):
    for number, body in itertools.product((1, 4, 0, 7), (b"", b"\x00", MARK, SHORT, bytes(255))):
        data = b"".join(record(kind, number, body) for kind in range(256))
        yield Case(f"every kind of set {number} with {len(body)} bytes", data)


def every_set(stocks):
    for kind, body in itertools.product(records.KINDS, (b"", b"\x01", SHORT, bytes(256))):
        data = b"".join(record(kind, number, body) for number in range(256))
        yield Case(f"kind {kind} of every set with {len(body)} bytes", data)
    # Numbers that are a set in their low bits, with bodies that it has.
    for stock in stocks:
        numbers = [0, *range(5, 9), *(stock.number + 2**i for i in range(3, 8)), 255]
        data = b"".join(record(kind, number, body) for kind, body in stock.bodies.items() for number in numbers)
        yield Case(f"bodies of set {stock.number} in no set", data)


def lengths(stocks):
    for stock in stocks:
        s, bodies = stock.s, stock.bodies
        for kind, body in bodies.items():
            # In kind 2 what is left after key and coins is the message: none, a byte, the longest, too long.
            key_and_coins = len(bodies[4])
            sizes = [len(body)] if kind != 2 else [key_and_coins, key_and_coins + s.message]
            beside = [size + change for size in sizes for change in (-1, 0, 1)] + [0, 1, MOST_BODY]
            data = b"".join(stock.record(kind, body.ljust(size, b"\x5a")[:size]) for size in beside)
            yield Case(f"kind {kind} of set {stock.number} with bodies of {beside} bytes", data)
        others = b"".join(stock.record(*one) for other in stocks for one in other.bodies.items())
        yield Case(f"bodies of every set in set {stock.number}", others)


def length_limit(stocks):
    """Bodies of the greatest length and above, there and cut."""
    sizes = (MOST_BODY, MOST_BODY + 1, MOST_BODY + 256, 2 * MOST_BODY, 65280, 65535)
    for kind, size, before in itertools.product((1, 2, 3, 4, 5, 9, 0), sizes, (b"", SHORT)):
        for number in (1, 7):
            whole = before + record(kind, number, bytes(size))
            name = f"kind {kind} of set {number} with {size} bytes after {len(before)}"
            yield Case(name, whole + AFTER)
            yield Case(f"{name}, one missing", whole[:-1])
            yield Case(f"{name}, all missing", whole[:len(before) + 6])


def cut_headers(stocks):
    starts = (MARK + b"\x01\x07\x00", b"\x4b\x45\x01\x07\xff", b"\x4a\x4e\x01\x07\x00", b"\x4e\x4b\x09\x01\xff",
              bytes(5), b"\xff" * 5)
    for before, start, size in itertools.product((b"", SHORT, stocks[0].one_of_each()), starts, range(1, 6)):
        yield Case(f"a header cut to {start[:size].hex()} after {len(before)} bytes", before + start[:size])


def wrong_marks(stocks):
    marks = [records.flipped(MARK, bit) for bit in range(16)]
    marks += [MARK[::-1], b"\x4b\x45", b"\x6b\x6e", bytes(2), b"\xff\xff", b"\x4b\x4b", b"\x4e\x4e", b"\x00\x4b"]
    whole = stocks[0].one_of_each()
    for mark, before in itertools.product(marks, (b"", SHORT, whole)):
        yield Case(f"the mark {mark.hex()} after {len(before)} bytes", before + mark + whole[2:] + whole)
    for mark, rest in itertools.product(marks[::5], (header(1, 1, 8193), header(1, 1, 65535), header(9, 7, 0),
                                                     header(1, 1, 96), header(9, 1, 8192))):
        for before in (b"", whole):
            yield Case(f"the mark {mark.hex()} on {rest.hex()} after {len(before)} bytes", before + mark + rest[2:])


def cut_bodies(stocks):
    for stock, (kind, size) in itertools.product(stocks, ((1, None), (2, None), (3, None), (4, None), (5, None),
                                                          (9, 10), (0, 8192), (255, 1))):
        whole = stock.record(kind, stock.bodies[kind] if size is None else bytes(size))
        for end in sorted({6, 7, len(whole) // 2, len(whole) - 1} - {len(whole)}):
            yield Case(f"kind {kind} of set {stock.number} cut to {end} bytes", stock.answered[0] + whole[:end])
        # In no set; with one byte more announced than are there.
        yield Case(f"kind {kind} of no set cut", SHORT + record(kind, 7, whole[6:])[:-1])
        yield Case(f"kind {kind} of set {stock.number} without its last byte",
                   header(kind, stock.number, len(whole) - 5) + whole[6:])


def garbage(stocks):
    rng = random.Random(f"{SEED}, garbage")
    for size in [*range(1, 20), *(rng.randrange(20, 100000) for _ in range(15))]:
        data = rng.randbytes(size)
        yield Case(f"{size} random bytes", data)
        yield Case(f"a record, then {size} random bytes", rng.choice(stocks).answered[0] + data)
        yield Case(f"a mark, then {size} random bytes", MARK + data)
    for size in (1, 5, 6, 7, 100, 70000):
        for byte in (b"\x00", b"\xff", b"\x4b", b"\x4e"):
            yield Case(f"{size} bytes {byte.hex()}", byte * size)
        yield Case(f"{size} bytes of marks", (MARK * size)[:size])


def damaged(stocks):
    """Ciphertexts with a bit changed, with a coefficient raised, cut and of another key."""
    rng = random.Random(f"{SEED}, damaged")
    for stock in stocks:
        s, pair, listed = stock.s, stock.pair, []
        for kind in (3, 5):
            body = stock.bodies[kind]
            bits = (0, 7, 8 * s.ciphertext - 1, *(rng.randrange(8 * s.ciphertext) for _ in range(6)))
            listed += [(kind, pair.flipped(body, bit)) for bit in bits]
            for j, change in itertools.product((0, s.l), (1, 2 * s.p, s.q // 4, s.q // 2, -1)):
                listed.append((kind, pair.raised(body, j, rng.randrange(s.n), change)))
            listed.append((kind, rng.randbytes(s.secret_key) + body[s.secret_key:]))
            listed.append((kind, pair.secret_key + rng.randbytes(s.ciphertext)))
            listed.append((8 - kind, body))
        yield Case(f"damaged ciphertexts of set {stock.number}", b"".join(itertools.starmap(stock.record, listed)))


def most_records(stocks):
    answered = stocks[0].answered[1]
    for cheap in (record(9, 1), SHORT, record(2, 1, b"\x4b")):
        for count in (MOST_RECORDS - 1, MOST_RECORDS, MOST_RECORDS + 1):
            yield Case(f"{count} records of kind {cheap[2]}", cheap * count)
    for number, after in enumerate((b"\x4b", b"\x4b\x4e\x01\x01\x00", b"garbage of many bytes", bytes(100000),
                                    header(1, 1, 8193), header(1, 1, 90), answered, answered * 2)):
        for count in (MOST_RECORDS - 1, MOST_RECORDS):
            yield Case(f"{count} records, then number {number} of what follows", record(9, 1) * count + after)
    mixed = (record(9, 1) + SHORT + record(3, 2)) * (MOST_RECORDS // 3)
    yield Case("mixed records, the last ones answered", mixed[6:-6] + answered * 4)
    yield Case("long bodies", record(1, 1, bytes(1000)) * 9 + record(9, 1, bytes(MOST_BODY)) * 2000 + answered)


def ways(stocks):
    """One input in blocks of many sizes, from a file, at once, and read slowly."""
    headers = (AFTER + stocks[0].answered[0]) * 10 + EXAMPLE
    small = stocks[0].one_of_each() + AFTER + EXAMPLE
    large = b"".join(stock.one_of_each() + b"".join(stock.refused) for stock in stocks) + AFTER
    yield Case("a small input in single bytes", small, in_blocks(1))
    for size in (1, 2, 3, 4, 5, 6, 7, 11):
        yield Case(f"many headers in blocks of {size} bytes", headers, in_blocks(size))
    for size in (97, 509, 1021, 4095, 4096, 4097, 8191, 8198, 16384, 65535, 65536, 2**20):
        yield Case(f"a large input in blocks of {size} bytes", large, in_blocks(size))
    for data in (headers, small, large, large + b"\x4b\x4e", large + b"\x4b\x45" + AFTER):
        for way, give in WAYS.items():
            yield Case(f"an input {way}", data, give)
    outputs = b"".join(b"".join(stock.answered) for stock in stocks)
    yield Case("many outputs that are read slowly", outputs, read_slowly)
    yield Case("many short lines that are read slowly", SHORT * 30000, read_slowly)
    yield Case("many outputs from a file", outputs, from_file)


def reading_ends(stocks):
    """Inputs that stay open: after 10 and 11, and after the last record, nothing more is awaited."""
    for before in (b"", stocks[0].one_of_each()):
        yield Case("a wrong mark, and the input stays open", before + b"\x4b\x45\x01\x01\x00\x00", left_open)
        yield Case("a length over the limit, and the input stays open", before + header(1, 1, 8193), left_open)
    yield Case("the last record, and the input stays open", SHORT * MOST_RECORDS, left_open)


def prompt(stocks):
    """Inputs that wait for their answers: a line is written before more input is awaited."""
    for stock in stocks:
        yield Case(f"set {stock.number}, record by record", b"".join(stock.answered + stock.refused) + AFTER, one_by_one)


# The long ones come early, so that no processor waits for another at the end.
PARTS = (paper, most_records, ways, damaged, length_limit, wrong_marks, lengths, cut_headers, cut_bodies, every_set,
         every_kind, garbage, reading_ends, prompt)


# Random mixtures

def changed(rng, one):
    """A record with its length, kind or set changed, or one of its bits."""
    kind, number, body = one[2], one[3], one[6:]
    part = rng.random()
    if part < 0.3:
        return record(kind, number, body[:rng.randrange(len(body) + 1)])
    if part < 0.5:
        return record(kind, number, body + rng.randbytes(rng.choice((1, 1, 2, 100, MOST_BODY - len(body)))))
    if part < 0.7:
        return record(rng.choice((0, 6, 7, 9, 255, rng.randrange(256))), number, body)
    if part < 0.85:
        return record(kind, rng.choice((0, 5, 7, 255, rng.randrange(256))), body)
    if part < 0.95:
        return record(kind, number, records.flipped(body, rng.randrange(8 * len(body))) if body else body)
    return records.flipped(one, rng.randrange(8 * 6))


def one_record(rng, stocks):
    stock, part = rng.choice(stocks), rng.random()
    if part < 0.55:
        return rng.choice(stock.answered)
    if part < 0.75:
        return rng.choice(stock.refused)
    if part < 0.9:
        return changed(rng, rng.choice(stock.answered))
    size = rng.choice((0, 1, rng.randrange(100), rng.randrange(MOST_BODY + 1), MOST_BODY))
    return record(rng.randrange(256), rng.choice((1, 2, 3, 4, rng.randrange(256))), rng.randbytes(size))


def last_bytes(rng, stocks):
    """What an input ends with: mostly nothing, or a record that is cut or has a wrong mark."""
    one = rng.choice(rng.choice(stocks).answered)
    part = rng.random()
    if part < 0.6:
        return b""
    if part < 0.8:
        return one[:rng.choice((1, 2, 5, 6, 7, rng.randrange(len(one)), len(one) - 1))]
    if part < 0.9:
        return rng.randbytes(rng.randrange(1, 5000)) + one
    return header(rng.randrange(7), rng.randrange(6), rng.randrange(MOST_BODY + 1, 65536)) + one * 3


def mixture(rng, stocks):
    """Compares one random input."""
    count = rng.choice((0, 1, 2, 3, 5, 10, 25, 60))
    data = b"".join(one_record(rng, stocks) for _ in range(count)) + last_bytes(rng, stocks)
    part = rng.random()
    if part < 0.6:
        return compare(Case("a mixture", data))
    if part < 0.8:
        return compare(Case("a mixture in a file", data, from_file))
    size = rng.choice((64, 1000, 4096, rng.randrange(50, 9000), 65536))
    return compare(Case(f"a mixture in blocks of {size} bytes", data, in_blocks(size)))


# Memory

def peak(process):
    """The program's peak resident size in KB, once it has read all that was written and awaits more. What
    wait4 tells of a child is no less than the size of the process that started it."""
    wait_until_read(process)
    status = Path(f"/proc/{process.pid}/status")
    while process.poll() is None:
        text = status.read_text()
        if re.search(r"^State:\s+S", text, re.MULTILINE):
            return int(re.search(r"^VmHWM:\s+(\d+) kB", text, re.MULTILINE)[1])
        time.sleep(0.001)
    raise Failure("memory: the program ended before its input")


def check_memory(stocks):
    """Peak memory after few records, and in the same run after many answered, long and short ones; in
    words."""
    few = b"".join(stock.one_of_each() for stock in stocks) + record(9, 1, bytes(MOST_BODY))
    long, short = record(9, 1, bytes(MOST_BODY)) * 250, SHORT * 20000
    with started() as (process, out):
        write(process, few)
        before = peak(process)
        write(process, few * 100)
        for _ in range(160):
            write(process, long)
        write(process, short)
        after = peak(process)
        process.stdin.close()
        process.wait()
        found = content_of(out)
    # What is printed of a record of no kind does not depend on its body.
    expected = records.transcript(few * 101 + record(9, 1) * 250 * 160 + short)
    if found != expected:
        check(False, f"memory: {first_difference(found, expected)}")
    counts = [records.statuses(output).total() for output in (records.transcript(few), expected)]
    told = f"peak memory {before} KB after {counts[0]} records, {after} KB after {counts[1]}"
    check(after - before <= GROWTH, told)
    return told


def test():
    check(PROGRAM.is_file(), f"{PROGRAM.relative_to(ROOT)} is missing: run make {PROGRAM.relative_to(ROOT)}")
    BUILD.mkdir(parents=True, exist_ok=True)
    stocks = [Stock(number) for number in kindi.SETS]

    def one_part(part):
        try:
            return [compare(case) for case in part(stocks)]
        except Failure as failure:
            raise Failure(f"seed {SEED}, {part.__name__}: {failure}") from failure

    counts = sum(spread(one_part, PARTS), [])
    seed, mixtures = repeat(mixture, stocks, SEED, INPUTS)
    memory = check_memory(stocks)
    total = sum(counts + mixtures, Counter())
    return (f"{len(counts) + len(mixtures)} inputs of linkcheck agree with the second implementation, "
            f"{records.tally(total)}; {memory} (seed {seed})")


main(test)
