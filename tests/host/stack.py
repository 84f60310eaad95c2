#!/usr/bin/env python3
"""stack_secrets.c passes at every level of optimization: where the frames of a call and of the function that
clears the stack lie depends on it. programs.py runs it at -O1, and stack_len.c."""

from support import ROOT, build_program, main, run

SOURCE = ROOT / "tests" / "host" / "stack_secrets.c"
LEVELS = ["-O0", "-O2", "-O3", "-Os"]


def test():
    for level in LEVELS:
        run([build_program(SOURCE, f"{SOURCE.stem}{level}", [level])])
    return f"no secret stays on a stack that is cleared, at {', '.join(LEVELS)}"


main(test)
