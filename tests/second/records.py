#!/usr/bin/env python3
"""The records of the second implementation: all that the program linkcheck prints for a whole input,
written from the paper 01 alone over the calls of kindi.py.

usage: records.py    check the paper's example, the empty input, each kind of record and each refusal
"""

import functools
import random
import sys
from collections import Counter
from pathlib import Path

sys.path.insert(0, str(Path(__file__).resolve().parents[1]))

from second import kindi  # noqa: E402

MARK = b"\x4b\x4e"
HEADER = 6
MOST_BODY = 8192
MOST_RECORDS = 65535

# The call that each kind names, and what it prints, in order. The call's inputs, in order, are the body.
KINDS = {
    1: ("keygen", ("public_key", "secret_key")),
    2: ("encrypt", ("ciphertext",)),
    3: ("decrypt", ("coins", "message")),
    4: ("encaps", ("key", "ciphertext")),
    5: ("decaps", ("key",)),
}

# The paper's example.
EXAMPLE = bytes.fromhex("4B 4E 09 01 00 00 4B 4E 02 07 00 00 4B 4E 01 01 01 00 AA 4B 4E")
EXAMPLE_OUTPUT = b"""\
1 9 12 0 -
2 2 1 0 -
3 1 2 0 -
4 - 11 0 -
end 4
"""


def record(kind, number, body=b""):
    """The bytes of a record of a kind and a set's number."""
    return MARK + bytes([kind, number]) + len(body).to_bytes(2, "little") + body


def body_length(header):
    """The length of the body that a whole header announces, low byte first."""
    return int.from_bytes(header[4:6], "little")


def header_refusal(data):
    """The refusal of the header that some bytes begin with, in the order of the paper's checks, or 0."""
    if len(data) < HEADER:
        return 11
    if data[:2] != MARK:
        return 10
    if body_length(data) > MOST_BODY or len(data) < HEADER + body_length(data):
        return 11
    return 0 if data[2] in KINDS else 12


def inputs_of(s, name, body):
    """The inputs of a call that a body holds; a message is what is left after the others."""
    names = kindi.CALLS[name].inputs
    sizes = [kindi.length(s, key) for key in names if key != "message"]
    rest = len(body) - sum(sizes)
    kindi.refuse(2, rest < 0 or rest > 0 and "message" not in names)
    return kindi.cut(body, *sizes, *[rest] * ("message" in names))


@functools.lru_cache(maxsize=2**13)
def answer(kind, number, body):
    """The refusal number, and the output, of a record whose header is not refused."""
    name, printed = KINDS[kind]
    s = kindi.SETS.get(number)
    if s is None:
        return 1, b""
    try:
        inputs = inputs_of(s, name, body)
    except kindi.Refused as refusal:
        return refusal.number, b""
    got = kindi.ask(name, s, inputs)
    if got.status:
        return got.status, b""
    outputs = dict(got.outputs)
    if "message" in outputs:
        outputs["message"] = outputs["message"][:got.values["message_len"][0]]
    return 0, b"".join(outputs[key] for key in printed)


def answers(data):
    """Of each record of an input: its kind, or None where its header does not tell it, its refusal number
    and its output."""
    rest = memoryview(data)
    for _ in range(MOST_RECORDS):
        if not rest:
            return
        refused = header_refusal(rest)
        if refused in (10, 11):
            yield None, refused, b""
            return
        kind, number, end = rest[2], rest[3], HEADER + body_length(rest)
        yield kind, *((refused, b"") if refused else answer(kind, number, bytes(rest[HEADER:end])))
        rest = rest[end:]


def transcript(data):
    """The whole output for a whole input."""
    lines = [f"{place} {'-' if kind is None else kind} {status} {len(output)} {output.hex() or '-'}\n"
             for place, (kind, status, output) in enumerate(answers(data), 1)]
    return "".join([*lines, f"end {len(lines)}\n"]).encode()


def statuses(output):
    """How many records of an output have each status."""
    return Counter(int(line.split(b" ", 3)[2]) for line in output.splitlines()[:-1])


def tally(counts):
    """The same in words."""
    listed = ", ".join(f"{count} of status {status}" for status, count in sorted(counts.items()))
    return f"{counts.total()} records: {listed}"


# Records for tests

def flipped(data, bit):
    """The same bytes with one bit changed, bit 0 of each byte first."""
    place = bit // 8
    return data[:place] + bytes([data[place] ^ 1 << bit % 8]) + data[place + 1:]


class KeyPair:
    """A key pair of a set, made from drawn seeds, and the bodies of records that use it; draw gives bytes
    of a length."""

    def __init__(self, number, draw):
        self.number, self.s, self.draw = number, kindi.SETS[number], draw
        self.seeds = draw(3 * self.s.seed)
        _, made = answer(1, number, self.seeds)
        self.public_key, self.secret_key = kindi.cut(made, self.s.public_key, self.s.secret_key)

    def message(self, size):
        """The body that encrypts a drawn message, and the one that decrypts it."""
        body = self.public_key + self.draw(self.s.coins) + self.draw(size)
        return body, self.secret_key + answer(2, self.number, body)[1]

    def shared_key(self):
        """The body that makes a shared key, and the one that takes it out of its ciphertext."""
        body = self.public_key + self.draw(self.s.coins)
        return body, self.secret_key + answer(4, self.number, body)[1][self.s.coins:]

    def blank(self):
        """A body to decrypt whose padded message is all zeros."""
        coins = self.draw(self.s.coins)
        return self.secret_key + kindi.encrypt_padded(self.s, self.public_key, coins, bytes(self.s.padded))

    def flipped(self, body, bit):
        """A body to decrypt with one bit of the ciphertext changed."""
        return flipped(body, 8 * self.s.secret_key + bit)

    def raised(self, body, j, place, change):
        """A body to decrypt with a coefficient of polynomial j of the ciphertext raised."""
        polys = kindi.polynomials(self.s, self.s.k, body[self.s.secret_key:])
        polys[j][place] += change
        return self.secret_key + kindi.string(self.s.k, polys)


# The check of this file

def check_calls(number, s, rng):
    """Each kind of record of a set, and the refusals that its calls have."""
    public_key, secret_key = kindi.made_keys(s, rng)
    coins, message = rng.randbytes(s.coins), rng.randbytes(s.message)
    ciphertext = kindi.encrypt_padded(s, public_key, coins, kindi.pad(s, message))
    seeds = rng.randbytes(3 * s.seed)

    def found(kind, *parts, under=number):
        *others, (told, status, output) = answers(record(kind, under, b"".join(parts)))
        assert not others and told == kind
        return status, output

    made = kindi.make_public_key(s, *kindi.cut(seeds, *[s.seed] * 3)[:2])
    assert found(1, seeds) == (0, made + made + seeds[s.seed:])
    assert found(2, public_key, coins, message) == (0, ciphertext)
    assert found(3, secret_key, ciphertext) == (0, coins + message)
    assert found(5, secret_key, ciphertext) == (7, b"")
    # An empty message, and one whose last bytes are zeros, are printed at their own lengths.
    for short in (b"", b"rye\x00\x00"):
        status, encrypted = found(2, public_key, coins, short)
        assert (status, found(3, secret_key, encrypted)) == (0, (0, coins + short))
    status, output = found(4, public_key, coins)
    key, shared = kindi.cut(output, s.coins, s.ciphertext)
    assert (status, found(5, secret_key, shared)) == (0, (0, key))
    assert found(3, secret_key, shared) == (0, coins + kindi.digest(s, coins))
    for kind in KINDS:
        assert found(kind, seeds, under=7) == (1, b"") and found(kind, bytes(MOST_BODY), under=0) == (1, b"")
        assert found(kind) == (2, b"")
    opened = secret_key + ciphertext
    for kind, body in ((1, seeds), (3, opened), (4, public_key + coins), (5, opened)):
        assert found(kind, body[1:]) == found(kind, body, b"\x00") == found(kind, bytes(MOST_BODY)) == (2, b"")
    assert found(2, public_key, coins[1:]) == (2, b"")
    assert found(2, public_key, coins, message, b"\x00") == (3, b"")
    polys = kindi.polynomials(s, s.k, ciphertext)
    polys[0][0] += 2 * s.p
    raised = kindi.string(s.k, polys)
    assert found(3, secret_key, raised) == found(5, secret_key, raised) == (5, b"")
    blank = kindi.encrypt_padded(s, public_key, coins, bytes(s.padded))
    assert found(3, secret_key, blank) == (6, b"")


def check_headers():
    """The refusals 10, 11 and 12, their order, and where reading ends."""
    def found(data):
        return [(kind, status) for kind, status, _ in answers(data)]

    good, unknown = record(1, 7), record(0, 1)
    assert found(good + unknown + good) == [(1, 1), (0, 12), (1, 1)]
    for mark in (b"\x4b\x45", b"\x4a\x4e", b"\x4e\x4b"):
        assert found(good + mark + good[2:] + good) == [(1, 1), (None, 10)]
        assert found(mark + b"\x01\x07\xff\xff") == [(None, 10)]
        assert found(mark + b"\x01\x07\xff") == [(None, 11)]
    for length in range(1, HEADER):
        assert found(good + good[:length]) == [(1, 1), (None, 11)]
    for kind in (1, 9):
        whole = record(kind, 7, bytes(MOST_BODY))
        assert found(whole + good) == [(kind, 1 if kind == 1 else 12), (1, 1)]
        assert found(whole[:-1]) == [(None, 11)]
        assert found(record(kind, 7, bytes(MOST_BODY + 1)) + good) == [(None, 11)]
    for count, told in ((65534, 65534), (65535, 65535), (65536, 65535)):
        assert transcript(unknown * count).endswith(f"\nend {told}\n".encode())
    assert transcript(unknown * MOST_RECORDS + b"\x4b") == transcript(unknown * MOST_RECORDS)


def check_itself():
    """A failure is an exception."""
    assert transcript(EXAMPLE) == EXAMPLE_OUTPUT
    assert transcript(b"") == b"end 0\n"
    assert transcript(record(0, 1)) == b"1 0 12 0 -\nend 1\n"
    check_headers()
    rng = random.Random(3)
    for number, s in kindi.SETS.items():
        check_calls(number, s, rng)


if __name__ == "__main__":
    check_itself()
    print("the records of the second implementation: the example, each kind and each refusal are the paper's")
