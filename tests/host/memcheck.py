#!/usr/bin/env python3
"""Under valgrind's memcheck, with secret bytes marked undefined, no branch and no address of the library
depends on them before the outcome of a call is decided. Where valgrind or its header is not installed the
test says so and passes.

A program is run twice: memcheck is silent, and it is not where the program itself branches on a result.
The calls of outcome.c have an outcome that depends on the secrets, and branch on it. That program counts
the reports of each call itself, and says how many a call may have and why; here every report has to
be a branch of the call's own function, and not of one that computes."""

import re
import shutil
import subprocess
from pathlib import Path
from xml.etree import ElementTree

from support import BUILD, ROOT, build_program, check, main

REPORTED = 9
PROGRAMS = Path(__file__).resolve().parents[1] / "memcheck"
COUNTING = "outcome"

# The exported call, or the function of its name that it stands for.
DECIDES = re.compile(r"(kindi_|(\w+::)*)(encrypt_each|decrypt|decaps|noise|choose)")


def installed():
    probe = ["gcc", "-E", "-include", "valgrind/memcheck.h", "-x", "c", "/dev/null", "-o", "/dev/null"]
    return shutil.which("valgrind") and subprocess.run(probe, capture_output=True).returncode == 0


def valgrind(*words):
    command = ["valgrind", "-q", *map(str, words)]
    return subprocess.run(command, cwd=ROOT, capture_output=True, text=True, errors="replace")


def silent(program, *words):
    """Runs a program that memcheck has nothing to report of."""
    return valgrind(f"--error-exitcode={REPORTED}", program, *words)


def counting(program, *words):
    """Runs the program that counts its reports; where they are has to be right too."""
    listing = BUILD / f"{program.name}.xml"
    done = valgrind("--xml=yes", f"--xml-file={listing}", program, *words)
    for error in ElementTree.parse(listing).iter("error"):
        kind, place = error.findtext("kind"), error.findtext("stack/frame/fn", "")
        done.stdout += f"{kind} in {place}\n"
        check(done.returncode != 0 or kind == "UninitCondition" and DECIDES.fullmatch(place),
              f"{program.name}: {done.stdout}")
    return done


def test():
    if not installed():
        return "valgrind is not installed: skipped"
    sources = sorted(PROGRAMS.glob("*.c"))
    check(sources, "there is no program to run")
    for source in sources:
        # valgrind's macros are GNU C.
        program = build_program(source, f"memcheck_{source.stem}", ["-Wno-pedantic", "-std=gnu99"],
                                ["scheme", "ring_calls"])
        memcheck = counting if source.stem == COUNTING else silent
        done = memcheck(program)
        check(done.returncode == 0, f"{source.name}: exit {done.returncode}\n{done.stdout}{done.stderr}")
        told = memcheck(program, "branch")
        check(told.returncode == REPORTED, f"{source.name}: memcheck does not report a branch on the output")
    return f"{', '.join(source.name for source in sources)}: no branch or address on secret bytes before an outcome"


main(test)
