"""What the host tests share: paths, running a compiler, the shared object, and guarded buffers."""

import ctypes
import multiprocessing
import os
import random
import re
import subprocess
import sys
from concurrent.futures import ProcessPoolExecutor
from pathlib import Path

ROOT = Path(__file__).resolve().parents[2]
INCLUDE = ROOT / "include"
HEADER = INCLUDE / "kindi.h"
# Where ring_calls.h is, the header of the ring's calls for tests, and stack_calls.h, the calls on a filled stack.
BENCH = ROOT / "bench"
BUILD = ROOT / "target" / "host"

WARNINGS = ["-Wall", "-Wextra", "-Wpedantic", "-Werror"]


class Failure(Exception):
    """A test that failed; the text says what."""


def check(condition, what):
    if not condition:
        raise Failure(what)


def run(command):
    """Runs a command and returns its standard output; a failure carries all that it wrote."""
    words = [str(word) for word in command]
    try:
        done = subprocess.run(words, cwd=ROOT, capture_output=True, text=True, errors="replace")
    except OSError as error:
        raise Failure(f"{words[0]} cannot be run: {error}") from error
    if done.returncode != 0:
        ended = f"ended by signal {-done.returncode}" if done.returncode < 0 else f"exit {done.returncode}"
        raise Failure(f"{' '.join(words)}: {ended}\n{done.stdout}{done.stderr}".rstrip())
    return done.stdout


def archive(crate="scheme"):
    """The static library of a crate; the one of scheme is what firmware links."""
    path = ROOT / "target" / "staticlib" / f"lib{crate}.a"
    check(path.is_file(), f"{path.relative_to(ROOT)} is missing: run make {path.relative_to(ROOT)}")
    return path


def build_program(source, name, words=(), crates=("scheme",)):
    """Compiles one C99 file with every warning an error and links it with the archives of the crates."""
    BUILD.mkdir(parents=True, exist_ok=True)
    out = BUILD / name
    run(["gcc", "-std=c99", "-O1", *WARNINGS, "-I", INCLUDE, "-I", BENCH, *words, source,
         *map(archive, crates), "-o", out])
    return out


def load_library(crate="scheme"):
    """Links the whole archive as a shared object and loads it. Text relocations and names that the C
    library does not have are refused, so an archive that is not position independent fails here."""
    BUILD.mkdir(parents=True, exist_ok=True)
    out = BUILD / f"lib{crate}.so"
    out.unlink(missing_ok=True)
    run(["gcc", "-shared", "-o", out, "-Wl,-z,text", "-Wl,-z,defs", "-Wl,--fatal-warnings",
         "-Wl,--whole-archive", archive(crate), "-Wl,--no-whole-archive"])
    return ctypes.CDLL(str(out))


def declared_functions():
    """The names of the functions that the header itself declares, as the compiler reads it."""
    BUILD.mkdir(parents=True, exist_ok=True)
    listing = BUILD / "declared.txt"
    run(["gcc", "-std=c99", "-fsyntax-only", "-x", "c", "-aux-info", listing, HEADER])
    names = set()
    for line in listing.read_text().splitlines():
        where, _, prototype = line.partition("*/")
        if f"/{HEADER.name}:" in where:
            names.add(prototype.partition("(")[0].split()[-1].lstrip("*"))
    return names


def defined_lengths():
    """The names of the header's macros that are lengths, as the compiler reads it."""
    listing = run(["gcc", "-std=c99", "-E", "-dM", "-x", "c", HEADER])
    return set(re.findall(r"^#define (KINDI_\w*_LEN)\(", listing, re.MULTILINE))


def defined_statuses():
    """The names and numbers of the header's statuses, in its order."""
    text = run(["gcc", "-std=c99", "-E", "-P", "-x", "c", HEADER])
    return [(name, int(number)) for name, number in re.findall(r"\b(KINDI_\w+) = (\d+)", text)]


class Guarded:
    """A buffer with a run of known bytes before and after it, to see a write outside it.

    Its address takes every remainder by 8 as offset runs from 0 to 7. What is in the buffer itself
    before a call is not zero, so that a byte that a call does not write shows.
    """

    GUARD = 64

    def __init__(self, length, offset=0, content=None):
        self.length = length
        self.before = self.GUARD + offset
        fill = bytes((0xC3 ^ (i * 29)) & 0xFF for i in range(self.before))
        self.head, self.tail = fill, fill[::-1]
        body = content if content is not None else b"\xa5" * length
        self.memory = (ctypes.c_ubyte * (length + 2 * self.before)).from_buffer_copy(self.head + body + self.tail)

    def pointer(self):
        return ctypes.cast(ctypes.addressof(self.memory) + self.before, ctypes.c_void_p)

    def bytes(self):
        """The buffer's bytes, once the bytes round it are seen to be as they were."""
        whole = bytes(self.memory)
        end = self.before + self.length
        check(whole[:self.before] == self.head, f"a byte before a buffer of {self.length} bytes was written")
        check(whole[end:] == self.tail, f"a byte after a buffer of {self.length} bytes was written")
        return whole[self.before:end]


def begin(job):
    """Keeps the job of a process of spread."""
    begin.job = job


def run_one(item):
    return begin.job(item)


def spread(job, items):
    """What a job gives for each item, in order; the items are shared out among the processors, each with
    a process that begins as a copy of this one. A failure or a crash in one of them ends the test."""
    fork = multiprocessing.get_context("fork")
    with ProcessPoolExecutor(os.cpu_count(), fork, initializer=begin, initargs=(job,)) as pool:
        return list(pool.map(run_one, items))


# The random calls that one process makes at a time, from a seed of their own.
AT_A_TIME = 50


def repeat(one_call, library, seed, calls):
    """Makes random calls, as many and from the seed that the command line names, else those given: the
    seed, and what each call returned. A failure says which call it was."""
    given = [int(word) for word in sys.argv[1:3]]
    seed, calls = given + [seed, calls][len(given):]

    def some(first):
        rng, answers = random.Random(f"{seed}, from {first} on"), []
        for number in range(first, min(first + AT_A_TIME, calls)):
            try:
                answers.append(one_call(rng, library))
            except Exception as error:
                raise Failure(f"seed {seed}, call {number}: {error}") from error
        return answers

    return seed, sum(spread(some, range(0, calls, AT_A_TIME)), [])


def main(test):
    """Runs a test: what it returns is its closing line, and a failure is exit 1 with what failed."""
    try:
        print(test())
    except Failure as failure:
        print(f"{Path(sys.argv[0]).name}: {failure}")
        sys.exit(1)
