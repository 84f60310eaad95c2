#!/usr/bin/env python3
"""The header compiles alone, as C99, later C and C++, with every warning an error; a status that is not looked at is
a warning, and a compiler without an attribute for that takes the header too; each length that it has is the second
implementation's, in a constant and at run time; and its refusals are the paper's, in the order of the checks."""

import re
import shutil
import subprocess
import sys

from shake import LIMIT
from support import (BUILD, HEADER, INCLUDE, ROOT, WARNINGS, check, declared_functions, defined_lengths,
                     defined_statuses, main, run)

sys.path.insert(0, str(ROOT / "tests"))

from second import kindi  # noqa: E402

LANGUAGES = [("c", ["gcc", "-std=c99"]), ("c++", ["g++", "-std=c++17"])]

# The languages in which a status that is not looked at warns; clang where it is installed.
STANDARDS = {"gcc": ["c99", "c11", "c17", "c2x"], "g++": ["c++11", "c++14", "c++17", "c++20"]}
CLANG = {"gcc": "clang", "g++": "clang++"}

# No set, the sets, no set.
NUMBERS = range(6)

LENGTHS = {
    "KINDI_SEED_LEN": lambda s: s.seed,
    "KINDI_COINS_LEN": lambda s: s.coins,
    "KINDI_PUBLIC_KEY_LEN": lambda s: s.public_key,
    "KINDI_SECRET_KEY_LEN": lambda s: s.secret_key,
    "KINDI_CIPHERTEXT_LEN": lambda s: s.ciphertext,
    "KINDI_KEY_LEN": lambda s: kindi.length(s, "key"),
    "KINDI_MESSAGE_MAX_LEN": lambda s: s.message,
    **{f"KINDI_{name.upper()}_WORK_LEN": this.work for name, this in kindi.CALLS.items()},
    "KINDI_MOST_WORK_LEN": lambda s: max(this.work(s) for this in kindi.CALLS.values()),
}

# In the order of the paper's checks; the one of the SHAKE calls stands last.
STATUSES = {"KINDI_OK": 0, "KINDI_NO_SUCH_SET": 1, "KINDI_WRONG_COUNT": 13, "KINDI_WRONG_INPUT_LEN": 2,
            "KINDI_MESSAGE_TOO_LONG": 3, "KINDI_WRONG_OUTPUT_LEN": 4, "KINDI_EQUAL_COINS": 14,
            "KINDI_ERROR_TOO_LARGE": 5, "KINDI_WRONG_PADDING": 6, "KINDI_WRONG_DIGEST": 7,
            "KINDI_WRONG_PUBLIC_KEY": 8, "KINDI_NONE_CLEAR": 9, "KINDI_PAST_LIMIT": 15}

# The most items of a list, and how far the SHAKE calls go.
LIMITS = {"KINDI_MAX_RECIPIENTS": kindi.MOST_RECIPIENTS, "KINDI_CHOOSE_MAX_COINS": kindi.MOST_COINS,
          "KINDI_SHAKE_LIMIT": LIMIT}


def length(name, number):
    return LENGTHS[name](kindi.SETS[number]) if number in kindi.SETS else 0


def calls_with_status():
    """Each call of the header that has a status, as an expression, with 0 for every argument."""
    text = re.sub(r"\s+", " ", run(["gcc", "-std=c99", "-E", "-P", "-x", "c", HEADER]))
    found = re.findall(r"uint32_t (kindi_\w+)\(([^)]*)\)", text)
    return [f"{name}({', '.join('0' for _ in arguments.split(','))})" for name, arguments in found]


def warnings(source, *words):
    """How many times a compiler says that a result is not used, and all that it says."""
    done = subprocess.run([*map(str, words), "-I", INCLUDE, "-S", "-o", "/dev/null", source], capture_output=True, text=True)
    check(done.returncode == 0, f"{' '.join(map(str, words))}: {done.stderr}")
    return done.stderr.count("[-Wunused-result]"), done.stderr


def check_statuses():
    """A status that is lost is a warning for each call that has one, and none where it is looked at or the compiler
    names no attribute; how many compilers and languages were tried."""
    calls, tried = calls_with_status(), 0
    check(len(calls) == len(declared_functions()), f"the header has {len(calls)} calls with a status")
    lost, looked_at = BUILD / "lost.c", BUILD / "looked_at.c"
    lost.write_text('#include "kindi.h"\nvoid f(void);\nvoid f(void) {' + "".join(f" {call};" for call in calls) + " }\n")
    looked_at.write_text('#include "kindi.h"\nuint32_t f(void);\nuint32_t f(void) { return ' + " | ".join(calls) + "; }\n")
    for gnu, standards in STANDARDS.items():
        for compiler in filter(shutil.which, (gnu, CLANG[gnu])):
            for standard in standards:
                words = [compiler, f"-std={standard}", *WARNINGS[:-1], "-x", "c++" if gnu == "g++" else "c"]
                found, said = warnings(lost, *words)
                check(found == len(calls), f"{compiler}, {standard}: {found} of {len(calls)} lost statuses warn: {said}")
                found, said = warnings(looked_at, *words)
                check(not said, f"{compiler}, {standard}: {said}")
                tried += 1
    found, said = warnings(lost, "gcc", "-std=c99", *WARNINGS[:-1], "-U__GNUC__")
    check(not said, f"without the attribute: {said}")
    return tried


def program():
    """A program that stops compiling where a constant is wrong, and prints each length as it is at run
    time; as an array's size, in #if, and beside the types that a caller has."""
    lines = ['#include "kindi.h"', "#include <stdio.h>"]
    for name in LENGTHS:
        for number in NUMBERS:
            lines += [f"#if {name}({number}) != {length(name, number)}", f"#error {name}({number})", "#endif"]
            lines.append(f"typedef char {name.lower()}_{number}[{name}({number}) == {length(name, number)} ? 1 : -1];")
        lines += [f"extern uint8_t a_{name.lower()}_{number}[{name}({number})];" for number in kindi.SETS]
    for name, number in STATUSES.items():
        lines.append(f"typedef char {name.lower()}[{name} == {number} ? 1 : -1];")
    for name, number in LIMITS.items():
        lines += [f"#if {name} != {number}", f"#error {name}", "#endif"]
    lines += ["int main(void)", "{", "    uint32_t status = 0, set;", "    size_t size = 0;", "    int number;",
              f"    for (set = 0; set < {len(NUMBERS)}; set++) {{", "        number = (int)set;"]
    for name in LENGTHS:
        lines += [f'        printf("{name} %u %u\\n", (unsigned)set, (unsigned){name}(set));',
                  f"        if ({name}(number) != {name}(set) || size > {name}(set + 0))", "            return 1;"]
    lines += ["    }", "    switch (status) {"]
    lines += [f"    case {name}:" for name in STATUSES]
    lines += ["        break;", "    }", "    return status == KINDI_OK ? 0 : 1;", "}", ""]
    return "\n".join(lines)


def test():
    for language, compiler in LANGUAGES:
        run([*compiler, *WARNINGS, "-fsyntax-only", "-x", language, HEADER])
    check(defined_lengths() == set(LENGTHS), f"the header's lengths are {sorted(defined_lengths())}")
    check(defined_statuses() == list(STATUSES.items()), f"the header's statuses are {defined_statuses()}")
    BUILD.mkdir(parents=True, exist_ok=True)
    source = BUILD / "lengths.c"
    source.write_text(program())
    expected = [f"{name} {number} {length(name, number)}" for number in NUMBERS for name in LENGTHS]
    for language, compiler in LANGUAGES:
        out = BUILD / f"lengths_{language}"
        run([*compiler, "-O1", *WARNINGS, "-I", INCLUDE, "-x", language, source, "-o", out])
        found = run([out]).splitlines()
        wrong = [f"{line}, expected {right}" for line, right in zip(found, expected, strict=True) if line != right]
        check(not wrong, f"{language}: {'; '.join(wrong)}")
    tried = check_statuses()
    return (f"the header compiles alone as C99 and as C++17; its {len(LENGTHS)} lengths are right in each set; "
            f"a lost status warns in {tried} compilers and languages")


main(test)
