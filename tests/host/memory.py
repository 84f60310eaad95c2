#!/usr/bin/env python3
"""What each call takes of memory, its stack and its work area, in every set: the first table of docs/BENCH.md has it, the
stack to NEAR bytes; the second has what it was when the whole matrix lay in the work area, and each sum is below that. No
stack and no work area is over its limit, and README.md's kilobytes of stack are those of the calls."""

import re

from support import BUILD, ROOT, build_program, check, main, run

BENCH = "docs/BENCH.md"
HEAD = "| call | stack | with the work area: set 1 | set 2 | set 3 | set 4 |"
SETS = (1, 2, 3, 4)
NEAR = 64

# What it was: the stack, and the work area set by set.
MATRIX_AND_COINS = (4864, 4160, 4608, 8512)
MATRIX_AND_BOTH = (5440, 4672, 5376, 9280)
BEFORE = {
    "kindi_keygen": (14048, (4608, 3840, 4352, 8256)),
    "kindi_encrypt": (17472, MATRIX_AND_COINS),
    "kindi_encrypt_each": (17552, MATRIX_AND_COINS),
    "kindi_decrypt": (24352, MATRIX_AND_COINS),
    "kindi_encaps": (17520, MATRIX_AND_COINS),
    "kindi_decaps": (24432, MATRIX_AND_COINS),
    "kindi_noise": (23504, MATRIX_AND_BOTH),
    "kindi_choose": (23504, MATRIX_AND_BOTH),
}

# The most of stack: none but keygen's may grow, and decryption's has to be 3 KB less. The most of work areas: the streams
# that a call reads and one polynomial of A beside them.
COINS = (1280, 1664, 1920, 1856)
BOTH = (1856, 2176, 2688, 2624)
LIMITS = {
    "kindi_keygen": (15000, (1024, 1344, 1664, 1600)),
    "kindi_encrypt": (17424, COINS),
    "kindi_encrypt_each": (17504, COINS),
    "kindi_decrypt": (24320 - 3072, COINS),
    "kindi_encaps": (17472, COINS),
    "kindi_decaps": (24384 - 3072, COINS),
    "kindi_noise": (23472, BOTH),
    "kindi_choose": (23472, BOTH),
}
SHAKES = {"kindi_shake128": 1632, "kindi_shake256": 1632}


def tables():
    """The rows of the two tables, now and before: the numbers of each call."""
    parts = (ROOT / BENCH).read_text().split(HEAD)[1:]
    check(len(parts) == 2, f"{BENCH} has not the two tables of stack and work area")
    found = []
    for part in parts:
        rows = {}
        for line in part.split("\n\n")[0].splitlines():
            cells = [cell.strip() for cell in line.strip("|").split("|")]
            for name in re.findall(r"`(\w+)`", cells[0]):
                rows[name] = [int(cell) for cell in cells[1:] if cell]
        found.append(rows)
    return found


def measured():
    """The most stack of each call, as bench/stack.c measures it."""
    most = {}
    lines = run([build_program(ROOT / "bench" / "stack.c", "stack")])
    for name, amount in re.findall(r"^\| `(\w+)`[^|]*\| (\d+) \|$", lines, re.M):
        most[name] = max(most.get(name, 0), int(amount))
    return most


def work_areas():
    """The lengths of the header's macros, as the compiler reads them."""
    prints = "".join(f'    printf("{name} %lu\\n", (unsigned long)KINDI_{name[6:].upper()}_WORK_LEN({number}));\n'
                     for name in LIMITS for number in SETS)
    BUILD.mkdir(parents=True, exist_ok=True)
    source = BUILD / "work_areas.c"
    source.write_text(f'#include <stdio.h>\n#include "kindi.h"\nint main(void)\n{{\n{prints}    return 0;\n}}\n')
    areas = {}
    for line in run([build_program(source, "work_areas")]).splitlines():
        name, length = line.split()
        areas.setdefault(name, []).append(int(length))
    return areas


def check_readme(stacks):
    """README.md's kilobytes: the most of all, of encryption, and of SHAKE, each to a tenth."""
    text = (ROOT / "README.md").read_text()
    told = re.search(r"at most ([\d.]+) KB of stack \(`KINDI_STACK_LEN`; encryption ([\d.]+) KB,.*?a SHAKE call ([\d.]+) KB\)", text)
    check(told, "README.md does not tell the stack of the calls")
    most = (max(stacks.values()), max(stacks["kindi_encrypt"], stacks["kindi_encrypt_each"]), max(stacks[name] for name in SHAKES))
    for number, stack in zip(told.groups(), most, strict=True):
        check(round(stack / 1000, 1) == float(number), f"README.md: {number} KB of stack, and {stack} bytes were measured")


def test():
    now, before = tables()
    stacks, areas = measured(), work_areas()
    check(set(now) == set(before) == set(LIMITS) | set(SHAKES), f"{BENCH}: the tables have not each call")
    for name, was in SHAKES.items():
        check(before[name] == [was] and [stacks[name]] == now[name], f"{name}: {stacks[name]} bytes of stack; {BENCH}: {now[name]}")
    for name, (stack, work) in LIMITS.items():
        was, lent = BEFORE[name]
        told, *sums = now[name]
        check(before[name] == [was, *(was + area for area in lent)], f"{BENCH}: {name} was otherwise before")
        check(stacks[name] <= told < stacks[name] + NEAR, f"{name}: {stacks[name]} bytes of stack, and {BENCH} says {told}")
        check(sums == [told + area for area in areas[name]], f"{BENCH}: {name}: the sums are {sums}")
        check(all(new < old for new, old in zip(sums, before[name][1:])), f"{name}: stack and work area did not fall")
        check(stacks[name] <= stack, f"{name}: {stacks[name]} bytes of stack, over {stack}")
        check(all(area <= most for area, most in zip(areas[name], work)), f"{name}: work areas of {areas[name]}, over {work}")
    check_readme(stacks)
    return f"stack and work area of {len(LIMITS)} calls in {len(SETS)} sets are as {BENCH} has them, and below what they were"


main(test)
