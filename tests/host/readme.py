#!/usr/bin/env python3
"""What README.md and docs/SCHEME.md show is so: the C program compiles with README's own command, and without a
warning, and prints its message; the line of linkcheck prints what is shown after it; and the shared keys of
zero seeds and coins begin as SCHEME.md says."""

import re
import shlex
import subprocess
import sys

from scheme import invoke, kindi, load
from support import BUILD, ROOT, WARNINGS, check, main, run

README = (ROOT / "README.md").read_text()
SCHEME = (ROOT / "docs" / "SCHEME.md").read_text()


def blocks(language=""):
    """The blocks of code of README.md in a language, without their fences."""
    found = re.findall(r"^```(\w*)\n(.*?)^```$", README, re.M | re.S)
    return [text for named, text in found if named == language]


def only(texts, what):
    check(len(texts) == 1, f"README.md has {len(texts)} blocks {what}")
    return texts[0]


def check_program():
    """Compiles the program as README.md says and with every warning an error, and runs it."""
    text = only(blocks("c"), "of C")
    command = only([text for text in blocks() if text.startswith("gcc ")], "that begin with gcc").strip()
    BUILD.mkdir(parents=True, exist_ok=True)
    source, out = BUILD / "firmware.c", BUILD / "firmware"
    source.write_text(text)
    words = [{"firmware.c": source, "firmware": out}.get(word, word) for word in shlex.split(command)]
    for more in [], ["-std=c99", *WARNINGS]:
        run([*words, *more])
        printed = run([out])
    message = re.search(r'message\[\] = "([^"]*)"', text)
    check(message and printed == message[1] + "\n", f"the program of README.md prints {printed!r}")


def check_linkcheck():
    """Runs the line of linkcheck in the shell."""
    every = blocks()
    at = [i for i, text in enumerate(every) if text.startswith("printf ")]
    check(len(at) == 1, f"README.md has {len(at)} blocks that begin with printf")
    done = subprocess.run(["sh", "-c", every[at[0]]], cwd=ROOT, capture_output=True, text=True)
    check((done.returncode, done.stdout) == (0, every[at[0] + 1]), f"linkcheck prints {done.stdout!r} {done.stderr}")


def check_shared_keys(library):
    """Encapsulates with zeros, and compares with the bytes that SCHEME.md has, set by set."""
    told = re.findall(r"`([0-9a-f]{16})`", SCHEME)
    check(len(told) == len(kindi.SETS), f"docs/SCHEME.md has {len(told)} beginnings of shared keys")
    for (number, s), begins in zip(kindi.SETS.items(), told, strict=True):
        def outputs(name, **inputs):
            room = {key: bytes(kindi.length(s, key)) for key in kindi.CALLS[name].outputs}
            return invoke(library, name, number, inputs, room, bytes(kindi.CALLS[name].work(s))).outputs
        zeros = {key: bytes(s.seed) for key in kindi.CALLS["keygen"].inputs}
        keys = outputs("keygen", **zeros)
        key = outputs("encaps", public_key=keys["public_key"], coins=bytes(s.coins))["key"]
        check(key.hex().startswith(begins), f"docs/SCHEME.md: the shared key of set {number} begins {key[:8].hex()}")


def test():
    check_program()
    check_linkcheck()
    check_shared_keys(load())
    return "README.md's program and line run as shown; SCHEME.md's shared keys are the library's"


main(test)
