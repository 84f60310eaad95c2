#!/usr/bin/env python3
"""Spells this repository's own definitions, lemmas and fields in snake case, by respell.tsv beside this file.

usage: tools/respell.py        at the top of the repository, once, after the kit's port.py

Types and modules keep their capitals, and a dash stays where it joins two words that are definitions. Names of src/, exported
names, strings, inputs and outputs stay. An import that was renamed with a middle dot, as `rho as Keccak·rho`, takes its own
name, since a clause names no function of src/.
"""

import re
import subprocess
from pathlib import Path

HERE = Path(__file__).resolve().parent
TABLE = dict(line.split("\t") for line in (HERE / "respell.tsv").read_text(encoding="utf-8").splitlines())
NAME = re.compile(r"[^\s(){}.;,@\"«»\[\]`:⟦⟧⌜⌝']+'*")
ALIAS = re.compile(r"\b([\w-]+) as (\w+)·\1(?![\w-])")
# Two imports of one plain name would meet in this file.
KEPT = {"crates/record_calls/proofs/Outcomes.antt": "ends_given"}


def respelled(text):
    return NAME.sub(lambda m: TABLE.get(m.group(), m.group()), text)


def plain_aliases(path, text):
    for name, module in ALIAS.findall(text):
        kept = KEPT.get(path)
        text = text.replace(f"{name} as {module}·{name}", f"{name} as {kept}" if kept else name)
        text = re.sub(rf"(?<![\w·]){module}·{name}(?![\w-])", kept or name, text)
    return text


def in_backticks(text):
    return re.sub(r"`[^`\n]+`", lambda m: respelled(m.group()), text)


def main():
    files = subprocess.run(["git", "ls-files"], capture_output=True, text=True, check=True).stdout.splitlines()
    for path in files:
        file = Path(path)
        if file.suffix in (".antt", ".rt"):
            turned = plain_aliases(path, respelled(file.read_text(encoding="utf-8")))
        elif file.suffix == ".edit":
            turned = respelled(file.read_text(encoding="utf-8"))
        elif file.suffix == ".md":
            turned = in_backticks(file.read_text(encoding="utf-8"))
        else:
            continue
        if turned != file.read_text(encoding="utf-8"):
            file.write_text(turned, encoding="utf-8")


main()
