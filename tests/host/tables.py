#!/usr/bin/env python3
"""The tables of the documents have the header's numbers, as the compiler reads it: README.md each length but those
of work areas, docs/WORK-AREAS.md these, of every call, and docs/SCHEME.md those of keys, ciphertexts and padded
messages; README.md and docs/SCHEME.md each refusal, in the header's order, which is also the order of the checks
that they and the header's comment tell. No work area is over 01's limit."""

import re

from support import (BUILD, HEADER, INCLUDE, ROOT, WARNINGS, check, declared_functions, defined_lengths,
                     defined_statuses, main, run)

SETS = (1, 2, 3, 4)
MOST_WORK = 65536

WORK_AREAS = "docs/WORK-AREAS.md"
README = "README.md"
SCHEME = "docs/SCHEME.md"

# The first lines of the tables.
OF_WORK = "| call | set 1 | set 2 | set 3 | set 4 | what lies in it |"
OF_ALL = "the longest of these"
OF_LENGTHS = "| | set 1 | set 2 | set 3 | set 4 |"
OF_REFUSALS = {README: "| number | when |", SCHEME: "| number | the check fails where | made by |"}

# The table of docs/SCHEME.md has a row for each set; what its columns are.
OF_SETS = ("| set | public key: ℓ polynomials at k − t bits, and a seed | secret key: public key and two seeds "
           "| ciphertext: ℓ + 1 polynomials at k bits | padded message: ℓ + 1 polynomials at v bits |")
COLUMNS = ["KINDI_PUBLIC_KEY_LEN", "KINDI_SECRET_KEY_LEN", "KINDI_CIPHERTEXT_LEN", "KINDI_MESSAGE_MAX_LEN"]


def work_of(call):
    return f"KINDI_{call.upper()}_WORK_LEN"


# The rows of lists: the macros of an item's length, and of the most items.
LISTS = {
    "list of coins of `kindi_choose`": ("KINDI_COINS_LEN", "KINDI_CHOOSE_MAX_COINS"),
    "public keys of `kindi_encrypt_each`": ("KINDI_PUBLIC_KEY_LEN", "KINDI_MAX_RECIPIENTS"),
    "list of coins of `kindi_encrypt_each`": ("KINDI_COINS_LEN", "KINDI_MAX_RECIPIENTS"),
    "ciphertexts of `kindi_encrypt_each`": ("KINDI_CIPHERTEXT_LEN", "KINDI_MAX_RECIPIENTS"),
}

# The macros that a row of lengths answers to, each of them; a list answers to its row of LISTS.
ROWS = {
    "seed, coins, shared key": ["KINDI_SEED_LEN", "KINDI_COINS_LEN", "KINDI_KEY_LEN"],
    "public key": ["KINDI_PUBLIC_KEY_LEN"],
    "secret key": ["KINDI_SECRET_KEY_LEN"],
    "ciphertext": ["KINDI_CIPHERTEXT_LEN"],
    "longest message, message output of `kindi_decrypt`": ["KINDI_MESSAGE_MAX_LEN"],
    **{name: [name] for name in LISTS},
}

# What stands before the order of the checks, in the texts that tell it.
ORDERS = {ROOT / README: "in this order: ", ROOT / SCHEME: "the first that fails gives the number: ",
          HEADER: "which is not that of their numbers: "}


# The refusal that is the only check of its calls, those of SHAKE; it stands last, and in no order of checks.
ALONE = "15"


def values(asked):
    """The header's numbers, each under the words that it is asked by."""
    BUILD.mkdir(parents=True, exist_ok=True)
    source, out = BUILD / "tables.c", BUILD / "tables"
    lines = ['#include "kindi.h"', "#include <stdio.h>", "int main(void)", "{"]
    lines += [f'    printf("%u\\n", {word});' for word in asked]
    lines += ["    return 0;", "}", ""]
    source.write_text("\n".join(lines))
    run(["gcc", "-std=c99", *WARNINGS, "-I", INCLUDE, source, "-o", out])
    return dict(zip(asked, map(int, run([out]).split()), strict=True))


def table(document, first):
    """The rows of the one table of a document that has this first line, as cells."""
    lines = (ROOT / document).read_text().splitlines()
    found = [at for at, line in enumerate(lines) if line == first]
    check(len(found) == 1, f"{document} has {len(found)} tables that begin {first}")
    rows = []
    for line in lines[found[0] + 2:]:
        if not line.startswith("|"):
            break
        rows.append([cell.strip() for cell in line.strip("|").split("|")])
    check(rows, f"{document}: the table that begins {first} has no rows")
    return rows


def check_row(document, row, name, cells):
    """Holds the four cells of a row to a macro; a call without one has no work area."""
    expected = cells.get(name, ["none"] * len(SETS))
    check(row[1:5] == expected, f"{document}, row {row[0]}: {', '.join(row[1:5])}; {name} is {', '.join(expected)}")


def check_work(cells):
    """Holds the table of work areas to the header; the macros that it has."""
    covered, called = set(), set()
    for row in table(WORK_AREAS, OF_WORK):
        if row[0] == OF_ALL:
            check_row(WORK_AREAS, row, work_of("most"), cells)
            covered.add(work_of("most"))
            check(row[4] == max(row[1:5], key=int), f"{WORK_AREAS}: an area of set 4's longest does not do for every set")
            continue
        for call in re.findall(r"\w+", row[0]):
            called.add(call)
            name = work_of(call.removeprefix("kindi_"))
            check_row(WORK_AREAS, row, name, cells)
            covered.add(name)
    wrong = called ^ declared_functions()
    check(not wrong, f"{WORK_AREAS}: the calls of the table are not the header's: {', '.join(sorted(wrong))}")
    return covered


def check_lengths(document, cells):
    """Holds the table of lengths of a document to the header; the macros that it has."""
    covered = set()
    for row in table(document, OF_LENGTHS):
        check(row[0] in ROWS, f"{document}: the row {row[0]} is not known")
        for name in ROWS[row[0]]:
            check_row(document, row, name, cells)
            covered.add(name)
    return covered


def check_sets(lengths):
    """Holds the table of docs/SCHEME.md to the header; a padded message has a byte more than the longest one."""
    for row, number in zip(table(SCHEME, OF_SETS), SETS, strict=True):
        expected = [lengths[name][number - 1] + (name == "KINDI_MESSAGE_MAX_LEN") for name in COLUMNS]
        check(list(map(int, row)) == [number, *expected], f"{SCHEME}, set {number}: {', '.join(row)}; not {expected}")


def check_refusals():
    """Holds the tables of refusals and the order of the checks to the header; how many refusals there are."""
    numbers = [str(number) for name, number in defined_statuses() if name != "KINDI_OK"]
    order = ", ".join(number for number in numbers if number != ALONE)
    for document, first in OF_REFUSALS.items():
        # The refusals of linkcheck alone are none of the header.
        listed = [row[0] for row in table(document, first) if not row[1].startswith("`linkcheck`")]
        check(listed == numbers, f"{document} has the refusals {', '.join(listed)}; the header {', '.join(numbers)}")
    for path, before in ORDERS.items():
        text = re.sub(r"\s+(\* )?", " ", path.read_text())
        told = re.findall(rf"{before}(\d+(?:, \d+)*)", text)
        check(told == [order], f"{path.name} has to say '{before}{order}' once: {told}")
    return len(numbers)


def test():
    names = sorted(defined_lengths())
    found = values([f"{name}({number})" for name in names for number in SETS] + [most for _, most in LISTS.values()])
    lengths = {name: [found[f"{name}({number})"] for number in SETS] for name in names}
    cells = {name: [str(length) for length in row] for name, row in lengths.items()}
    for row, (item, most) in LISTS.items():
        cells[row] = [f"{one} to {found[most] * one} by {one}" for one in lengths[item]]
    for document, wanted in (WORK_AREAS, True), (README, False):
        covered = check_work(cells) if wanted else check_lengths(document, cells)
        missing = {name for name in cells if name.endswith("_WORK_LEN") == wanted} - covered
        check(not missing, f"{document} has no row of {', '.join(sorted(missing))}")
    check_sets(lengths)
    for name, row in lengths.items():
        check(not name.endswith("_WORK_LEN") or max(row) <= MOST_WORK, f"{name} is over {MOST_WORK}")
    return f"the tables have the header's {len(lengths)} lengths in each set and its {check_refusals()} refusals"


main(test)
