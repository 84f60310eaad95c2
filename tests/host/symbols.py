#!/usr/bin/env python3
"""The archive exports the functions that the header declares and no other name, and needs nothing but
memcpy, memset and memmove."""

from support import archive, check, declared_functions, main, run

ALLOWED = {"memcpy", "memset", "memmove"}


def names(*words):
    """The names that nm lists, without the lines that name the archive's members."""
    lines = run(["nm", "--format=posix", *words, archive()]).splitlines()
    return {line.split()[0] for line in lines if len(line.split()) > 1 and not line.endswith(":")}


def listed(found):
    return " ".join(sorted(found))


def test():
    declared = declared_functions()
    exported = names("--extern-only", "--defined-only")
    needed = names("--undefined-only") - exported
    check(declared, "the header declares no function")
    check(not exported - declared, f"exported and not in the header: {listed(exported - declared)}")
    check(not declared - exported, f"in the header and not exported: {listed(declared - exported)}")
    check(needed <= ALLOWED, f"the archive needs more than {listed(ALLOWED)}: {listed(needed - ALLOWED)}")
    return f"{len(exported)} functions exported, all in the header; needed: {listed(needed) or 'nothing'}"


main(test)
