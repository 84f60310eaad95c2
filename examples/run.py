#!/usr/bin/env python3
"""Proves and builds the library and the programs, and runs every example: a line for each step, how far a
long one is, and all that the steps print in target/run.log. Exits with 1, and the end of that log, where a
step fails.
"""

import re
import subprocess
import sys
import time
from pathlib import Path

ROOT = Path(__file__).resolve().parents[1]
LOG = ROOT / "target" / "run.log"

# The programs that rt proves and runs on their stored input.
PROGRAMS = ["shake_vectors", "ring_vectors", "linkcheck"]

# The C examples, and what each shows.
SHOWN = {
    "shake": "SHAKE128 and SHAKE256 of a text, from its start and from a place on",
    "programme": "keys, a shared key and a programme come back, an altered copy is refused",
    "tagged": "a programme with a tag: of its ciphertext altered in each single bit none is taken",
    "clear_stack": "after a call the stack is cleared of what it left",
    "shop": "one programme for eight ovens, each decrypts its own part",
}

# How many lines say how far a step is where the output is no terminal.
MARKS = 4


def crates():
    """The crates of each crate, by crates.txt: itself, and all that it stands on."""
    found = {}
    for line in (ROOT / "crates.txt").read_text().splitlines():
        kind, colon, below = line.partition("#")[0].partition(":")
        if colon:
            name = kind.split()[0]
            found[name] = {name}.union(*(found[one] for one in below.split() if one in found))
    return found


class Progress:
    """How many crates are proved of those that a step needs."""

    def __init__(self, wanted):
        self.wanted, self.proved, self.shown, self.began = wanted, set(), 0, time.monotonic()
        if wanted:
            self.show()

    def see(self, line):
        found = re.match(r"crate (\w+): modules", line)
        if found and found[1] in self.wanted:
            self.proved.add(found[1])
            self.show()

    def show(self):
        done, every = len(self.proved), len(self.wanted)
        if sys.stdout.isatty():
            print(f"\r        proved: {done} of {every} crates, {took(self.began)} ", end="", flush=True)
        elif done * MARKS // every > self.shown and done < every:
            self.shown = done * MARKS // every
            print(f"        proved: {done} of {every} crates, {took(self.began)}", flush=True)

    def end(self):
        if sys.stdout.isatty() and self.wanted:
            print("\r" + " " * 60 + "\r", end="")


def took(began):
    seconds = round(time.monotonic() - began)
    return f"{seconds // 60} min {seconds % 60} s" if seconds >= 60 else f"{seconds} s"


def step(log, command, wanted=()):
    """Runs a command with its output in the log; how long it took."""
    began, progress = time.monotonic(), Progress(set(wanted))
    log.write(f"$ {' '.join(command)}\n")
    with subprocess.Popen(command, cwd=ROOT, stdin=subprocess.DEVNULL, stdout=subprocess.PIPE,
                          stderr=subprocess.STDOUT, text=True, errors="replace") as running:
        for line in running.stdout:
            log.write(line)
            log.flush()
            progress.see(line)
    progress.end()
    if running.returncode != 0:
        last = "".join(LOG.read_text(errors="replace").splitlines(keepends=True)[-20:])
        sys.exit(f"{last}run.py: '{' '.join(command)}' failed; all that it printed is in {LOG.relative_to(ROOT)}")
    return took(began)


def main():
    LOG.parent.mkdir(exist_ok=True)
    below = crates()
    programs = set.union(*(below[name] for name in PROGRAMS))
    with LOG.open("w") as log:
        print(f"what the steps print: {LOG.relative_to(ROOT)}", flush=True)
        time_taken = step(log, ["make", "lib"], below["scheme"])
        print(f"1 of 4  the library is proved and built: target/staticlib/libscheme.a ({time_taken})", flush=True)
        time_taken = step(log, ["make", "programs"], programs - below["scheme"])
        print(f"2 of 4  the programs are proved, and right on their stored cases ({time_taken})", flush=True)
        time_taken = step(log, ["make", "examples"])
        print(f"3 of 4  the examples are compiled: target/examples/ ({time_taken})", flush=True)
        for name, what in SHOWN.items():
            print(f"        {name}: {what} ({step(log, [f'target/examples/{name}'])})", flush=True)
        print(f"4 of 4  linkcheck answers four records ({step(log, ['examples/linkcheck.py'])})", flush=True)


main()
