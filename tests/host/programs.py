#!/usr/bin/env python3
"""Every C program of this folder and of examples/ compiles as C99 without a warning, links the archive
as a position independent executable and as a fixed one, and exits 0."""

from support import ROOT, build_program, check, main, run

FOLDERS = [ROOT / "tests" / "host", ROOT / "examples"]
LINKS = [("pie", ["-fPIE", "-pie"]), ("fixed", ["-fno-pie", "-no-pie"])]


def test():
    sources = [source for folder in FOLDERS for source in sorted(folder.glob("*.c"))]
    check({source.parent for source in sources} == set(FOLDERS), "a folder has no C program")
    for source in sources:
        for label, words in LINKS:
            run([build_program(source, f"{source.parent.name}_{source.stem}_{label}", words)])
    return f"{', '.join(source.name for source in sources)}: passed"


main(test)
