"""The library's source, for tests that hold it to lists: its texts, without comments and contracts, and what such a test says
of it and of texts that break the lists.
"""

import re
from pathlib import Path

ROOT = Path(__file__).resolve().parents[1]

# The crates that the library does not have: programs, and what only tests and the benchmark use.
OUTSIDE = {"hex_digits", "lines", "record_calls", "records", "linkcheck", "ring_calls", "shake_vectors", "ring_vectors"}


def library():
    """The text of each source of the library, without its comments."""
    texts = {}
    for path in sorted(ROOT.glob("crates/*/src/**/*.rt")):
        _, crate, _, *name = path.relative_to(ROOT).parts
        if crate not in OUTSIDE:
            texts[f"{crate} {'/'.join(name)}"] = re.sub(r"//.*", "", path.read_text())
    return texts


def body(text, name):
    """A function, from its name to the end of its body."""
    found = re.search(rf"^(?:pub(?:\(crate\))? )?fn {name}\(.*?^\}}", text, re.M | re.S)
    return found.group(0) if found else ""


# What begins a clause of a contract, which stands on a line of its own before a body; and what the prover alone reads.
CLAUSE = re.compile(r"^ +(?:requires|ensures)(?: \w+)? (?=\{)", re.M)
GHOST = re.compile(r"^ghost use [^;]*;|^#!\[tactic\(auto\)\]$|^#\[derive\(Clone, Copy\)\]$", re.M)


def closing(text, opening):
    """The place after the brace that closes the one at the place given."""
    depth = 0
    for at in range(opening, len(text)):
        depth += {"{": 1, "}": -1}.get(text[at], 0)
        if depth == 0:
            return at + 1
    return len(text)


def code(text):
    """The text without contracts, the names that they use, and the attributes of the prover and of copies."""
    text, kept, at = GHOST.sub("", text), [], 0
    while found := CLAUSE.search(text, at):
        kept.append(text[at:found.start()])
        at = closing(text, found.end())
    return "".join(kept) + text[at:]


def report(test, wrongs, evasions, said):
    """Prints what a test finds in the source, and which of the changes that break its rule it does not find; else what it
    says. The exit status."""
    texts = library()
    found = list(wrongs(texts))
    for place, old, new in evasions:
        if texts[place].count(old) < 1:
            found.append(f"{place}: a text to be tried is not there: {old.strip()}")
        elif not list(wrongs({**texts, place: texts[place].replace(old, new, 1)})):
            found.append(f"{place}: nothing is said of: {new.strip()}")
    for line in found:
        print(f"{test}: {line}")
    if not found:
        print(said)
    return 1 if found else 0
