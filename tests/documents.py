#!/usr/bin/env python3
"""What the documents say of the tree: each page says first whom it is for; links, paths and names in backticks are
there; docs/CERTIFY.md has every file that has to be believed, with its lines, and wrong programs that there are;
the version is that of docs/changes/; README.md names every example.

usage: documents.py    say every thing that is wrong, and exit 1 where there is one
"""

import re
import sys
from pathlib import Path

ROOT = Path(__file__).resolve().parents[1]
CRATES = ROOT / "crates"
CERTIFY = "docs/CERTIFY.md"

# They begin with commits, a line each: between which the crates were brought to today's Rattle and to its forms.
COMMITS = {"PORT.md", "DESIGN-PASS.md"}

# What speaks of the tree as it is now; the others have histories too.
PRESENT = ["README.md", CERTIFY, "docs/SCHEME.md", "docs/PROMISES.md", "docs/WORK-AREAS.md"]

# Where a name of a document may stand.
SOURCES = ["crates/*/src/**/*.rt", "crates/*/specs/**/*.antt", "crates/*/proofs/**/*.antt", "include/*.h", "tests/**/*.py",
           "tests/**/*.c", "tests/run", "examples/*", "bench/*", "Makefile", "crates.txt"]

# Names in backticks that stand for something outside the tree.
OUTSIDE = {"rt", "read", "write", "usize", "end", "requires", "ensures", "make", "gcc", "valgrind", "strace", "now"}

# How many requests 02 has.
REQUESTS = 13

# Where reading begins: the contracts of the library, the theorems on what its calls leave, the table of lengths, the
# examples and the reader's definitions; what the program prints, and what its functions leave.
BEGINNINGS = ["scheme/src/lib.rt", "scheme/proofs/Demand3.antt", "scheme/proofs/Recipients.antt",
              "kindi/specs/Lengths.antt", "kindi/proofs/Examples.antt", "packing/specs/Reading.antt",
              "records/specs/Transcript.antt", "records/specs/Steps.antt", "record_calls/specs/Outputs.antt", "linkcheck/specs/Turns.antt"]


def text_of(name):
    return (ROOT / name).read_text()


def check_readers():
    for path in [ROOT / "README.md", *sorted((ROOT / "docs").rglob("*.md"))]:
        if path.name in COMMITS:
            continue
        lines = path.read_text().splitlines()
        if len(lines) < 3 or not re.match(r"# \S", lines[0]) or not lines[2].startswith("For "):
            yield f"{path.name}: the line after its title does not say whom it is for"


def check_links():
    for path in [ROOT / "README.md", *sorted((ROOT / "docs").rglob("*.md"))]:
        for link in re.findall(r"\]\(([^)#]+)(?:#[^)]*)?\)", path.read_text()):
            if not link.startswith("http") and not (path.parent / link).exists():
                yield f"{path.name} has a link to {link}, which is not there"


def expanded(word):
    """A path with its braces written out: a/{b,c}.d is a/b.d and a/c.d."""
    found = re.fullmatch(r"(.*)\{([^}]*)\}(.*)", word)
    return [f"{found[1]}{one}{found[3]}" for one in found[2].split(",")] if found else [word]


def check_names():
    """Each path in backticks is there, from the root or from crates/; so is each name."""
    words = set()
    for pattern in SOURCES:
        for path in ROOT.glob(pattern):
            if path.is_file():
                words |= set(re.findall(r"[^\s(){}\[\];,.:`\"']+", path.read_text(errors="replace")))
    words |= {path.stem for path in CRATES.glob("*/must-fail/*.edit")} | {path.name for path in CRATES.iterdir()}
    files = {path.name for pattern in SOURCES for path in ROOT.glob(pattern)} | {path.name for path in ROOT.glob("docs/*")}
    for document in PRESENT:
        for quoted in re.findall(r"(?<!`)`([^`\n]+)`(?!`)", text_of(document)):
            for word in expanded(quoted):
                if re.fullmatch(r"[\w.-]+(?:/[\w.+-]+)+/?", word):
                    there = [base / end for base in (ROOT, CRATES, CRATES / "kindi/specs")
                             for end in (word, f"{word}.edit")]
                    if not word.startswith("target/") and not any(path.exists() for path in there):
                        yield f"{document}: there is no {word}"
                elif re.fullmatch(r"\w+\.(?:antt|rt|py|c|h|md|edit)", word):
                    if word not in files | {"NAME.edit", "firmware.c"}:
                        yield f"{document}: there is no file {word}"
                elif re.fullmatch(r"[0-9a-f]{16}", word):
                    pass
                elif re.fullmatch(r"[^\W\d][\w'-]*[\w']", word) and word not in words | OUTSIDE:
                    yield f"{document}: {word} stands nowhere in the sources"


def declaration(crate, name):
    """Where a struct or an enum of a crate is declared, and its lines with the comment and the attributes in front of it."""
    for path in sorted((CRATES / crate / "src").glob("*.rt")):
        found = re.search(rf"(?:^//.*\n)*(?:^#\[.*\]\n)*^(?:pub )?(?:struct|enum) {name} \{{\n(?:.*\n)*?^\}}$", path.read_text(), re.M)
        if found:
            return path, len(found[0].splitlines())
    return CRATES / crate / "src", 0


def believed():
    """The lines of each file that has to be believed: where reading begins, all definitions that this rests on, and
    of sources the structs and enums that these name."""
    whole, declared, todo = set(), {}, [CRATES / name for name in BEGINNINGS]
    while todo:
        path = todo.pop()
        if path in whole:
            continue
        whole.add(path)
        uses = re.findall(r"^(?:ghost |pub )?use Rattle\.(\w+)\.specs\.([\w.]+?)(?:\.TheVariants)?\.\{", path.read_text(), re.M)
        for crate, name in uses:
            if not (CRATES / crate).is_dir():
                # A word of the kit's own libraries.
                continue
            if name.startswith("declared."):
                source, lines = declaration(crate, name.rpartition(".")[2])
                declared.setdefault(source, {})[name] = lines
            else:
                todo.append(CRATES / crate / "specs" / f"{name}.antt")
    counts = {path: len(path.read_text().splitlines()) for path in whole}
    return counts | {path: sum(lines.values()) for path, lines in declared.items()}


def check_believed():
    """The table of docs/CERTIFY.md has just these files, with their lines, and the sum."""
    rows = re.findall(r"^\| ([^|]+) \|(?: ([^|]*`[^|]*))? \| ([\d,]+) \|$", text_of(CERTIFY), re.M)
    right, listed, total = believed(), set(), 0
    for what, names, lines in rows:
        number = int(lines.replace(",", ""))
        if not names:
            if number != total:
                yield f"{CERTIFY}: {what}: {number} lines; they are {total}"
            if f"({total:,} lines for the library)" not in text_of("README.md"):
                yield f"README.md does not say that {total:,} lines are to be believed for the library"
            continue
        files = {CRATES / name for quoted in re.findall(r"`([^`]+)`", names) for name in expanded(quoted)}
        counted = sum(right.get(path, 0) for path in files)
        if counted != number:
            yield f"{CERTIFY}: {what}: {number} lines; they are {counted}"
        listed, total = listed | files, total + counted
    for path in sorted(listed ^ right.keys()):
        yield f"{CERTIFY}: {path.relative_to(CRATES)} is {'not to be believed' if path in listed else 'left out'}"


def check_wrong_programs():
    """The wrong programs of the calls stand in the crates named."""
    rows = [line for line in text_of(CERTIFY).splitlines() if line.startswith(("| `kindi_", "| all:"))]
    for row in rows:
        crate, count = None, 0
        for name, colon in re.findall(r"`(\w+)`(:?)", row.strip("|").split("|")[-1]):
            if colon:
                crate = name
            elif not (CRATES / str(crate) / "must-fail" / f"{name}.edit").is_file():
                yield f"{CERTIFY}: {crate} has no wrong program {name}"
            count += not colon
        if count < 2:
            yield f"{CERTIFY} names {count} wrong programs in the row {row[:40]}"
    if not rows:
        yield f"{CERTIFY} has no row of a call"


def version_of(number):
    """The version that a request makes; the base is request 0, and the last makes 1.0.0."""
    return "1.0.0" if number == REQUESTS else f"0.{number + 1}.0"


def check_version():
    """The header's version is the highest that a change note names."""
    found = dict(re.findall(r"#define KINDI_VERSION_(\w+) (\d+)", text_of("include/kindi.h")))
    version = ".".join(found.get(part, "?") for part in ("MAJOR", "MINOR", "PATCH"))
    highest = 0
    for path in sorted((ROOT / "docs/changes").glob("*.md")):
        number = int(path.name[:2])
        highest = max(highest, number)
        if f"Version {version_of(number)}" not in path.read_text():
            yield f"docs/changes/{path.name} does not say 'Version {version_of(number)}'"
    if version != version_of(highest):
        yield f"the header's version is {version}; docs/changes/ has {version_of(highest)}"


def check_examples():
    for path in sorted((ROOT / "examples").glob("*.c")):
        for document in ("README.md", "examples/run.py"):
            word = f"`examples/{path.name}`" if document.endswith(".md") else f'"{path.stem}":'
            if word not in text_of(document):
                yield f"{document} does not name the example {path.name}"


def check_counts():
    """How many crates and edits there are, where their times are told; README.md has the time of each crate."""
    crates = re.findall(r"^(\w+)(?: staticlib)?:", text_of("crates.txt"), re.M)
    edits = len(list(CRATES.glob("*/must-fail/*.edit")))
    for document, said in (("README.md", f"{edits} must-fail edits"), ("docs/BENCH.md", f"the {edits} must-fail edits"),
                           ("docs/BENCH.md", f"the {len(crates)} crates")):
        if said not in text_of(document):
            yield f"{document} does not say: {said}"
    for crate in crates:
        if not re.search(rf"`{crate}` \d+ s\b", text_of("README.md")):
            yield f"README.md has no time of the check of {crate}"


CHECKS = [check_readers, check_links, check_names, check_believed, check_wrong_programs, check_version, check_examples,
          check_counts]


def main():
    wrong = [said for check in CHECKS for said in check()]
    for said in wrong:
        print(f"documents.py: {said}")
    if wrong:
        sys.exit(1)
    print(f"{len(believed())} files to believe, {len(CHECKS)} checks passed")


main()
