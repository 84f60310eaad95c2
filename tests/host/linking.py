#!/usr/bin/env python3
"""The archive links in the ways that README.md and the header name, and runs: as a shared object, a static-pie
executable and a fixed one, and without a C library where the program has its own memcpy and memset. With
--gc-sections a program that calls keygen alone has no more code than they say. The code has no instruction beyond
SSE2."""

import re

from support import BUILD, INCLUDE, WARNINGS, archive, check, load_library, main, run

# What the documents call about 22 KB, without a C library's own code.
MOST_OF_KEYGEN = 22500

CALL = """\
#include "kindi.h"

static uint8_t seed[3][KINDI_SEED_LEN(3)], public_key[KINDI_PUBLIC_KEY_LEN(3)], secret_key[KINDI_SECRET_KEY_LEN(3)];
static uint8_t work[KINDI_KEYGEN_WORK_LEN(3)];

static int failed(void)
{
    return kindi_keygen(3, seed[0], sizeof seed[0], seed[1], sizeof seed[1], seed[2], sizeof seed[2], public_key,
        sizeof public_key, secret_key, sizeof secret_key, work, sizeof work) != KINDI_OK;
}
"""

HOSTED = CALL + "int main(void) { return failed(); }\n"

# Linux starts a program at _start, with a stack that is aligned to 16 bytes, and ends it at a system call.
BARE = CALL + """
void *memcpy(void *to, const void *from, size_t count);
void *memset(void *to, int byte, size_t count);

void *memcpy(void *to, const void *from, size_t count)
{
    uint8_t *next = to;
    const uint8_t *byte = from;

    while (count-- > 0)
        *next++ = *byte++;
    return to;
}

void *memset(void *to, int byte, size_t count)
{
    uint8_t *next = to;

    while (count-- > 0)
        *next++ = (uint8_t)byte;
    return to;
}

__attribute__((force_align_arg_pointer, noreturn)) void _start(void);

void _start(void)
{
    __asm__ volatile("syscall" : : "a"(60L), "D"((long)failed()) : "rcx", "r11", "memory");
    __builtin_unreachable();
}
"""

# A loop of memcpy's own must not become a call of memcpy.
ALONE = ["-ffreestanding", "-fno-tree-loop-distribute-patterns", "-fno-stack-protector", "-nostdlib", "-static"]

WAYS = {
    "static-pie": (HOSTED, ["-fPIE", "-static-pie"]),
    "fixed": (HOSTED, ["-fno-pie", "-no-pie", "-static"]),
    "bare": (BARE, [*ALONE, "-fno-pie", "-no-pie"]),
    "sections": (BARE, [*ALONE, "-fno-pie", "-no-pie", "-Wl,--gc-sections"]),
}


# Instructions of SSE3 and later: a processor that has only SSE2 cannot run them. (tzcnt runs there as bsf, and the
# compiler allows for that.)
LATER = re.compile(r"v\w+|lddqu|mov(ddup|sldup|shdup)|h(add|sub)p.|addsubp.|pshufb|ph(add|sub)\w+|pmul(ld|hrsw|dq)|pmaddubsw"
                   r"|p(min|max)(sb|sd|ud|uw)|pabs.|psign.|palignr|blend\w+|pblend\w+|p(insr|extr)[bdq]|insertps|extractps"
                   r"|pmov[sz]x\w+|ptest|pcmp(eqq|gtq|[ei]str.)|packusdw|movntdqa|round\w+|dpp.|mpsadbw|crc32\w?|popcnt|lzcnt"
                   r"|andn|bextr|bls\w+|bzhi|[sr](ar|hl|hr|or)x|mulx|pdep|pext|ad[co]x|aes\w+|pclmul\w+|sha\d\w+")


def instructions():
    """The names of the instructions of the archive."""
    listing = run(["objdump", "--disassemble", "--no-show-raw-insn", archive()])
    return set(re.findall(r"^ *[0-9a-f]+:\t(\w+)", listing, re.M))


def code_of(path):
    """The bytes of code and constants of a program."""
    return int(run(["size", path]).splitlines()[1].split()[0])


def test():
    names = instructions()
    later = sorted(name for name in names if LATER.fullmatch(name))
    check("pmaddwd" in names and not later, f"the code has instructions beyond SSE2: {' '.join(later)}")
    load_library()
    size = {}
    for name, (text, words) in WAYS.items():
        source, out = BUILD / f"link_{name}.c", BUILD / f"link_{name}"
        source.write_text(text)
        run(["gcc", "-std=c99", "-O1", *WARNINGS, "-I", INCLUDE, *words, source, archive(), "-o", out])
        run([out])
        size[name] = code_of(out)
    check(size["sections"] <= MOST_OF_KEYGEN, f"keygen alone has {size['sections']} bytes of code")
    check(size["bare"] > 2 * size["sections"], "--gc-sections drops nothing to speak of")
    return f"links as a shared object, {', '.join(WAYS)}; keygen alone has {size['sections']} bytes of code"


main(test)
