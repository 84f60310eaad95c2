#!/usr/bin/env python3
"""Checks of the tree itself, once the gate has run rt ci: what rt does not look at. That every file is laid out as rt fmt
does it, and that nothing is ignored of what stands in a crate, rt ci sees itself.

usage: tree.py    say every thing that is wrong, and exit 1 where there is one
"""

import re
import subprocess
import sys
from pathlib import Path

from source import closing

ROOT = Path(__file__).resolve().parents[1]
CRATES = ROOT / "crates"

# What the gate keeps of what rt ci says (.ci/run).
LOG = ROOT / "target" / "rt-ci.log"

# The files that a crate may have, below crates/NAME, beside out/, which rt makes and no commit has.
KNOWN = re.compile(
    r"src/[^/]+\.rt|specs/[^/]+\.antt|proofs/.+\.antt|must-fail/[^/]+\.edit|stdin|stdout|args|status|data/[^/]+")

# The first folders of a build machine's absolute paths; the group keeps this line from matching.
MACHINE_PATH = re.compile(r"(?<![\w.-])/(?:work|root|home|opt|Users|mnt|srv)/")

# The proof of a function is its invariants and its answers, each under the name of what it is for: a file that goes through
# the code place by place (docs/KIT-NOTES.md) would break where a line is added to the function.
WALK = "Proof.antt"
# An answer names its facts and does not count the steps back to them: so many may be left in all, and a chain of three or more
# only in a file with a comment on `.before`.
STEPS_LEFT = 100
CHAIN = re.compile(r"(?:\.before){2}\.before(?![\w-])")
LONGEST_LINE = 160

# What rt says of an edit that is refused, and of one that is refused only because a proof file names a goal or a place that
# the edited code no longer has; with the prover's own words for such a name.
REFUSED = re.compile(r"rt: must-fail (\S+): refused, as it must be(.*)")
STALE = re.compile(r"only because a proof file names what the edit took away|has no field|is not in scope|has no `|was not admitted")


def relative(path):
    return path.relative_to(ROOT).as_posix()


def listed_crates():
    names = set()
    for line in (ROOT / "crates.txt").read_text().splitlines():
        name, colon, _ = line.partition("#")[0].partition(":")
        if colon:
            names.add(name.split()[0])
    return names


def check_crates():
    listed = listed_crates()
    found = {path.name for path in CRATES.iterdir()}
    for name in sorted(found - listed):
        yield f"crates/{name} is not listed in crates.txt"
    for name in sorted(listed - found):
        yield f"crates.txt lists {name}, and there is no crates/{name}"


def check_kinds():
    for part in sorted(path for path in CRATES.glob("*/*") if path.name != "out"):
        for path in [part, *sorted(part.rglob("*"))]:
            below = path.relative_to(CRATES).as_posix().partition("/")[2]
            if path.is_symlink():
                yield f"{relative(path)} is a symbolic link"
            elif path.is_file() and not KNOWN.fullmatch(below):
                yield f"{relative(path)} is of no kind that a crate has"


def clauses(text):
    """The kinds of clause between a function's attribute and its body, which is the first brace that
    follows no clause's word."""
    kinds, at = [], 0
    while (brace := text.find("{", at)) >= 0:
        word = re.search(r"\b(requires|ensures)(?:\s+\w+)?\s*$", text[at:brace])
        if not word:
            break
        kinds.append(word[1])
        at = closing(text, brace)
    return kinds


def check_exports():
    count = 0
    for path in sorted(CRATES.glob("*/src/**/*.rt")):
        text = re.sub(r"//[^\n]*", "", path.read_text())
        for attribute in re.finditer(r"#\s*\[[^\]]*\b(?:no_mangle|export_name)\b[^\]]*\]", text):
            after = text[attribute.end():]
            name = re.search(r"\bfn\s+(\w+)", after)
            where = f"{relative(path)}: {name[1] if name else 'an exported item'}"
            kinds = clauses(after)
            count += 1
            if "ensures" not in kinds:
                yield f"{where} is exported and has no ensures"
            if "requires" in kinds:
                yield f"{where} is exported and has a requires, which no C caller is held to"
    if count == 0:
        yield "no function is marked #[unsafe(no_mangle)]"


def check_edits():
    """rt ci has refused each edit, because a fact fails and not because a proof file no longer fits."""
    if not LOG.is_file():
        yield f"there is no {relative(LOG)}; has .ci/run run?"
        return
    refused = dict(re.findall(REFUSED, LOG.read_text(errors="replace")))
    for edit in sorted(CRATES.glob("*/must-fail/*.edit")):
        said = refused.get(f"{edit.parents[1].name}/{edit.name}")
        if said is None:
            yield f"{relative(edit)} is not refused, as {relative(LOG)} has it"
        elif STALE.search(said):
            yield f"{relative(edit)} is refused because a proof file no longer fits, not because a fact fails{said[:500]}"


def check_proofs():
    steps = 0
    for path in sorted(CRATES.glob("*/proofs/**/*.antt")):
        text = path.read_text()
        code = re.sub(r"^\s*--.*$", "", text, flags=re.MULTILINE)
        steps += len(re.findall(r"\.before(?![\w-])", code))
        if path.name == WALK:
            yield f"{relative(path)} goes through the code place by place"
        if CHAIN.search(code) and not re.search(r"^\s*--.*\.before", text, re.MULTILINE):
            yield f"{relative(path)} counts three places back or more and does not say why"
        for number, line in enumerate(text.splitlines(), 1):
            if len(line) > LONGEST_LINE and " " in line.strip():
                yield f"{relative(path)}:{number} has {len(line)} characters, over {LONGEST_LINE}"
    if steps > STEPS_LEFT:
        yield f"the proofs count {steps} places back, over {STEPS_LEFT}"


def check_citations():
    """A definition that a contract cites stands in specs/, and rests on nothing in proofs/."""
    for path in sorted([*CRATES.glob("*/src/**/*.rt"), *CRATES.glob("*/specs/*.antt")]):
        for number, line in enumerate(path.read_text().splitlines(), 1):
            if re.match(r"(?:ghost |pub |unfoldable )*use Rattle\.\w+\.proofs\b", line):
                yield f"{relative(path)}:{number} names a file of proofs: {line.strip()}"


def committed_files():
    if (ROOT / ".git").exists():
        command = ["git", "ls-files", "-z", "--cached", "--others", "--exclude-standard"]
        done = subprocess.run(command, cwd=ROOT, capture_output=True)
        if done.returncode == 0:
            names = set(done.stdout.decode().split("\0")) - {""}
            return sorted(ROOT / name for name in names)
    apart = {"target", "out", ".git", "__pycache__"}
    return sorted(path for path in ROOT.rglob("*") if not apart & set(path.relative_to(ROOT).parts))


def check_paths():
    for path in committed_files():
        if re.match(r"crates/\w+/out/", relative(path)):
            yield f"{relative(path)} is made by rt, and no commit has it"
        if path.is_symlink() or not path.is_file():
            continue
        content = path.read_bytes()
        if b"\0" in content:
            continue
        for number, line in enumerate(content.decode(errors="replace").splitlines(), 1):
            if MACHINE_PATH.search(line):
                yield f"{relative(path)}:{number} has an absolute path of a machine: {line.strip()[:200]}"


CHECKS = [check_crates, check_kinds, check_exports, check_citations, check_proofs, check_edits, check_paths]


def main():
    wrong = [said for check in CHECKS for said in check()]
    for said in wrong:
        print(f"tree.py: {said}")
    if wrong:
        sys.exit(1)
    edits = len(list(CRATES.glob("*/must-fail/*.edit")))
    print(f"{len(listed_crates())} crates, {edits} must-fail edits, {len(CHECKS)} checks passed")


main()
