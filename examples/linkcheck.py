#!/usr/bin/env python3
"""Drives the program linkcheck as somebody would who has the program alone: an oven makes a key pair, a
baking programme is encrypted to it and comes back, and a copy that was altered on its way is refused. The
programme is the first argument, or one of its own where there is none. Prints what linkcheck prints,
shortened, and exits with 1 where an answer is not what it should be.
"""

import hashlib
import subprocess
import sys
from pathlib import Path

PROGRAM = Path(__file__).resolve().parents[1] / "target" / "bin" / "linkcheck"

# Kinds of records.
KEYGEN, ENCRYPT, DECRYPT = 1, 2, 3

# The parameter set, and its lengths in bytes.
SET, SEED, COINS, PUBLIC_KEY, CIPHERTEXT = 3, 64, 64, 1728, 2688

ERROR_TOO_LARGE = 5


def draw(label, size):
    """Stands where a product draws from its random source, and gives the same bytes at each run, which
    anybody can make. In a product every seed and all coins are fresh, uniformly random and secret, and
    coins are used for one record only."""
    return hashlib.shake_256(label.encode()).digest(size)


def record(kind, body):
    """The mark, the kind, the set, the body's length with its low byte first, and the body."""
    return b"\x4b\x4e" + bytes([kind, SET]) + len(body).to_bytes(2, "little") + body


def linkcheck(records):
    """The lines that the program prints for some records."""
    done = subprocess.run([PROGRAM], input=b"".join(records), stdout=subprocess.PIPE, check=True)
    return done.stdout.decode().splitlines()


def answer(one, expected=0):
    """The output of a record that is answered, or refused, as expected."""
    _, kind, refused, _, output = linkcheck([one])[0].split()
    if refused != str(expected):
        sys.exit(f"linkcheck.py: a record of kind {kind} has the answer {refused}, and not {expected}")
    return b"" if output == "-" else bytes.fromhex(output)


def shortened(line):
    """A line with at most 24 hexadecimal digits of its output."""
    *fields, output = line.split(" ")
    return " ".join([*fields, output if len(output) <= 24 else f"{output[:24]}..."])


def main():
    if not PROGRAM.is_file():
        sys.exit("linkcheck.py: target/bin/linkcheck is missing: run make target/bin/linkcheck")
    programme = sys.argv[1] if len(sys.argv) > 1 else "rye, 2 kg: 250 C with steam for 10 min; 200 C for 50 min"

    # The oven makes its keys, and gives the public one away.
    make = record(KEYGEN, draw("seed mu", SEED) + draw("seed gamma", SEED) + draw("seed z", SEED))
    keys = answer(make)
    public_key, secret_key = keys[:PUBLIC_KEY], keys[PUBLIC_KEY:]

    # Who has the public key encrypts the programme to it.
    coins = draw("coins of the programme", COINS)
    encrypt = record(ENCRYPT, public_key + coins + programme.encode())
    ciphertext = answer(encrypt)

    # The oven decrypts it: the coins come back, and then the programme.
    decrypt = record(DECRYPT, secret_key + ciphertext)
    opened = answer(decrypt)
    if opened != coins + programme.encode():
        sys.exit("linkcheck.py: the programme does not come back")

    # One bit of another copy changed on its way.
    altered = bytearray(ciphertext)
    altered[CIPHERTEXT // 2] ^= 0x40
    refuse = record(DECRYPT, secret_key + bytes(altered))
    answer(refuse, ERROR_TOO_LARGE)

    # The same four records as one input.
    lines = linkcheck([make, encrypt, decrypt, refuse])
    if [line.split()[2] for line in lines[:-1]] != ["0", "0", "0", "5"] or lines[-1] != "end 4":
        sys.exit("linkcheck.py: the records together are not answered as one by one")
    told = [
        "make keys: the public key, then the secret key",
        "encrypt the programme to the public key: the ciphertext",
        f"decrypt it: the coins, then the programme\n  {opened[COINS:].decode()}",
        "decrypt an altered copy: refused, as an error is too large",
        "the number of records",
    ]
    print(f"parameter set {SET}; a line has the record's number, kind, status, length of output, output")
    for line, what in zip(lines, told, strict=True):
        print(f"{shortened(line)}\n  {what}")


main()
