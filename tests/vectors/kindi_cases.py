#!/usr/bin/env python3
"""Makes the known answers of each parameter set, computed by the second implementation.

usage: kindi_cases.py          write tests/vectors/known_answers/set1.txt to set4.txt
       kindi_cases.py --check  only say whether the files are what would be written

A file is text. A part begins with a call's name in brackets and has a line 'name = value' for each
input, output and returned value of that call, in the order of its arguments. An input or output is bytes
in hexadecimal, and nothing where there are none; a count is a decimal number, and a returned value is one,
or all right ones where several are right. A key or a ciphertext that has no line is the one that the last
part before gave out. A refusal has a line 'status = number' in place of what it leaves alone. Lines that
begin with # are comments.

Two lists are not written out, since they would take most of a file: public_keys has, for each key, which
of the parts [keygen] gave it out, counted from 1, and ciphertexts has the first 32 bytes of SHAKE256 of
each ciphertext.
"""

import hashlib
import sys
from pathlib import Path

sys.path.insert(0, str(Path(__file__).resolve().parents[1]))

from second import kindi  # noqa: E402
from stored import KNOWN_ANSWERS, store  # noqa: E402

HEAD = """\
# Known answers of KINDI, set {number}: n = {s.n}, l = {s.l}, p = {s.p}, t = {s.t}, q = 2^{s.k}, {shake}.
# Made by tests/vectors/kindi_cases.py, which says what the parts and lines are.
"""


def draw(number, what, size):
    """The bytes of a seed, coins or a message: SHAKE256 of a label."""
    return hashlib.shake_256(f"KINDI known answers, set {number}, {what}".encode()).digest(size)


# What a part leaves out where an earlier one gave it out.
KEPT = ("public_key", "secret_key", "ciphertext")


class Parts:
    """The lines of the parts so far, the keys and the ciphertext that the last of them gave out, and all
    public keys."""

    def __init__(self, s):
        self.s, self.lines, self.above, self.public_keys = s, [], {}, []

    def add(self, name, *inputs, note=None, status=0):
        """Adds one call; what it gives."""
        got = kindi.ask(name, self.s, inputs)
        assert got.status == status
        given = dict(zip(kindi.CALLS[name].inputs, inputs))
        shown = {key: data for key, data in given.items() if data != self.above.get(key)}
        self.public_keys += [data for key, data in got.outputs.items() if key == "public_key"]
        self.lines += [f"# {note}"] * (note is not None) + [f"[{name}]"]
        if status:
            self.lines += self.texts(shown) + [f"status = {status}", ""]
        else:
            numbers = [f"{key} = {' '.join(map(str, right))}" for key, right in got.values.items()]
            self.lines += self.texts({**shown, **got.outputs}) + numbers + [""]
            self.above.update({key: data for key, data in got.outputs.items() if key in KEPT})
        return got

    def texts(self, given):
        """The lines of inputs and outputs."""
        return [f"{key} = {self.text(key, data)}".rstrip() for key, data in given.items()]

    def text(self, key, data):
        if key == "count":
            return str(data)
        if key == "public_keys":
            return " ".join(str(1 + self.public_keys.index(one)) for one in kindi.items(data, self.s.public_key))
        if key == "ciphertexts":
            return " ".join(hashlib.shake_256(one).hexdigest(32) for one in kindi.items(data, self.s.ciphertext))
        return data.hex()


def key_inputs(number, s):
    """The seeds of each key pair: drawn, all zeros, all ones."""
    yield [draw(number, name, s.seed) for name in ("mu", "gamma", "z")]
    for byte in (b"\x00", b"\xff"):
        yield [byte * s.seed] * 3


def pairs(number, s):
    """The coins and message of each encryption to the first key pair."""
    for size in (0, 1, s.message // 2, s.message):
        what = f"message of {size} bytes"
        yield draw(number, f"coins of the {what}", s.coins), draw(number, what, size)


def refused(parts, coins):
    """A refusal of each number from 5 to 8, under the keys and with the empty message of earlier parts."""
    s, above = parts.s, parts.above
    public_key, secret_key, ciphertext = (above[key] for key in ("public_key", "secret_key", "ciphertext"))
    polys = kindi.polynomials(s, s.k, ciphertext)
    polys[-1][0] += 2 * s.p
    parts.add("decaps", secret_key, ciphertext, status=7)
    parts.add("decrypt", secret_key, kindi.string(s.k, polys), note="coefficient 0 of D raised by 2p", status=5)
    blank = kindi.encrypt_padded(s, public_key, coins, bytes(s.padded))
    parts.add("decrypt", secret_key, blank, note="a padded message of zeros", status=6)
    flipped = bytes([secret_key[0] ^ 1]) + secret_key[1:]
    parts.add("noise", flipped, coins, b"", note="the first bit of the key changed", status=8)


def recipients(parts, number):
    """Encryptions to several recipients, each named by the place of its key pair, from 1."""
    s, most = parts.s, kindi.MOST_RECIPIENTS
    for place in range(len(parts.public_keys) + 1, most + 1):
        seeds = [draw(number, f"{name} of key pair {place}", s.seed) for name in ("mu", "gamma", "z")]
        parts.add("keygen", *seeds, note=f"key pair {place}")

    def each(places, size, note, status=0):
        """One message of a size to some recipients; where it is refused by 14 the last has the first's coins."""
        keys = b"".join(parts.public_keys[place - 1] for place in places)
        coins = draw(number, f"coins of {note}", len(places) * s.coins)
        if status == 14:
            coins = coins[:-s.coins] + coins[:s.coins]
        message = draw(number, f"message of {note}", size)
        parts.add("encrypt_each", len(places), keys, coins, message, note=note, status=status)

    each([1], 0, "one recipient, an empty message")
    each([3, 2], s.message // 2, "two recipients")
    each(range(1, 9), 0, "eight recipients, an empty message")
    each(range(most, 0, -1), s.message, "twelve recipients, the longest message")
    each([5, 7, 5], 1, "three recipients, two with the same key")
    each(range(1, most + 1), 1, "the first and the last of twelve recipients have equal coins", 14)
    each([4, 4], 1, "the same key twice with equal coins", 14)
    each([], 1, "no recipient", 13)
    each([*range(1, most + 1), 1], 1, "thirteen recipients", 13)


def known_answers(number, s):
    parts = Parts(s)
    first, *others = key_inputs(number, s)
    keys = parts.add("keygen", *first).outputs
    for coins, message in pairs(number, s):
        parts.add("encrypt", keys["public_key"], coins, message, note=f"a message of {len(message)} bytes")
        opened = parts.add("decrypt", keys["secret_key"], parts.above["ciphertext"])
        assert (opened.outputs["coins"], opened.values["message_len"]) == (coins, [len(message)])
        parts.add("noise", keys["secret_key"], coins, message)
        if not message:
            refused(parts, coins)
    coins = draw(number, "coins of the shared key", s.coins)
    made = parts.add("encaps", keys["public_key"], coins).outputs
    assert parts.add("decaps", keys["secret_key"], made["ciphertext"]).outputs == {"key": made["key"]}
    parts.add("choose", keys["secret_key"], b"", draw(number, "coins to choose from", 3 * s.coins))
    for seeds in others:
        note = f"every byte of the seeds and coins is {seeds[0][:1].hex()}"
        keys = parts.add("keygen", *seeds, note=note).outputs
        made = parts.add("encaps", keys["public_key"], seeds[0][:1] * s.coins).outputs
        parts.add("decaps", keys["secret_key"], made["ciphertext"])
    recipients(parts, number)
    return parts.lines


def make():
    """The files' bytes, by name."""
    kindi.check_itself()
    files = {}
    for number, s in kindi.SETS.items():
        head = HEAD.format(number=number, s=s, shake="SHAKE128" if s.shake is hashlib.shake_128 else "SHAKE256")
        files[f"set{number}.txt"] = "\n".join([head, *known_answers(number, s)]).encode()
    return files


def main():
    files = store(KNOWN_ANSWERS, make, __doc__)
    count = sum(text.count(b"\n[") for text in files.values())
    print(f"{count} known answers in {len(files)} files of {sum(map(len, files.values()))} bytes")


main()
