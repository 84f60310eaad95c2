#!/usr/bin/env python3
"""The scheme of the second implementation: keys, encryption to one recipient and to several, decryption,
shared keys, the noise and the choice among coins, written from the paper 01 and request No. 1 of 02 alone,
but for the lengths of work areas, in plain integers and lists. SHAKE is hashlib's.

A polynomial is a list of n integers, coefficient 0 first, which is taken modulo q only where the paper
asks for it. `answer` and `call` give the whole answer of a C call: its status, the values that it
returns, and each output and the work area as they are at exit.

usage: kindi.py    check the lengths and examples of the paper, round trips, and the refusals of the calls
"""

import functools
import hashlib
import itertools
import random
import sys
from collections.abc import Callable
from dataclasses import dataclass
from pathlib import Path

sys.path.insert(0, str(Path(__file__).resolve().parents[1]))

from second import ring  # noqa: E402


# Parameter sets: all but the eight fields follows from them.

@dataclass(frozen=True)
class Parameters:
    n: int
    l: int
    p: int
    t: int
    k: int
    seed: int
    coins: int
    shake: Callable

    @property
    def q(self):
        return 2**self.k

    @property
    def g(self):
        return self.q // 2

    @property
    def small(self):
        """The width in bits of a small coefficient, 0 to 2p - 1."""
        return ring.width(2 * self.p)

    def size(self, count, w):
        """The bytes of some polynomials of w bits a coefficient."""
        return -(-count * self.n * w // 8)

    @property
    def padded(self):
        """The bytes of a padded message, 01's container: the errors of C and D."""
        return self.size(self.l + 1, self.small)

    @property
    def message(self):
        """The greatest length of a message."""
        return self.padded - 1

    @property
    def public_key(self):
        return self.size(self.l, self.k - self.t) + self.seed

    @property
    def secret_key(self):
        return self.public_key + 2 * self.seed

    @property
    def ciphertext(self):
        return self.size(self.l + 1, self.k)

    @property
    def matrix_stream(self):
        return self.size(self.l * self.l, self.k)

    @property
    def gamma_stream(self):
        return self.size(2 * self.l, self.small)

    @property
    def coins_parts(self):
        """The bytes of w, the mask, h, and s_2 to s_l, the parts of the coins' stream."""
        return [self.size(self.l, self.t), self.padded, self.size(1, ring.width(self.p)),
                self.size(self.l - 1, self.small)]

    def run(self, data, length):
        """A single run of SHAKE."""
        return self.shake(data).digest(length)


def usual(n, l, p, t, k, shake):
    """Parameters whose seed and coins have n bits."""
    return Parameters(n, l, p, t, k, n // 8, n // 8, shake)


SETS = {
    1: usual(256, 3, 4, 2, 14, hashlib.shake_128),
    2: usual(512, 2, 2, 2, 13, hashlib.shake_256),
    3: usual(512, 2, 4, 1, 14, hashlib.shake_256),
    4: usual(512, 3, 2, 1, 13, hashlib.shake_256),
}


# Streams

def cut(data, *sizes):
    """A string of bytes cut into parts of the given sizes, which it has exactly."""
    parts = []
    for size in sizes:
        parts.append(data[:size])
        data = data[size:]
    assert not data
    return parts


def items(data, size):
    """The items of a list, which lie one after another and have this size each."""
    return cut(data, *[size] * (len(data) // size))


def polynomials(s, w, data):
    """All polynomials of w bits a coefficient in a string of bytes."""
    count = 8 * len(data) // (w * s.n)
    flat = ring.unpack(w, count * s.n, data)
    return [flat[i * s.n:(i + 1) * s.n] for i in range(count)]


def string(w, polys):
    """The bytes of polynomials at w bits a coefficient."""
    return ring.pack(w, [c for poly in polys for c in poly])


def centred(p, polys):
    return [ring.centre(poly, p) for poly in polys]


@functools.lru_cache(maxsize=32)
def matrix(s, mu):
    """A from mu, as a list of rows."""
    flat = polynomials(s, s.k, s.run(mu, s.matrix_stream))
    return [flat[i * s.l:(i + 1) * s.l] for i in range(s.l)]


@functools.lru_cache(maxsize=32)
def key_secrets(s, gamma):
    """r_1 to r_l and r'_1 to r'_l from gamma."""
    polys = centred(s.p, polynomials(s, s.small, s.run(gamma, s.gamma_stream)))
    return polys[:s.l], polys[s.l:]


def bits_of(data):
    """The bits of a string of bytes, bit 0 of each byte first."""
    return ring.unpack(1, 8 * len(data), data)


@functools.lru_cache(maxsize=32)
def coins_stream(s, coins):
    """w, the mask, and s_1 to s_l from the coins."""
    parts = cut(s.run(coins, sum(s.coins_parts)), *s.coins_parts)
    w = centred(2**(s.t - 1), polynomials(s, s.t, parts[0]))
    high, = polynomials(s, ring.width(s.p), parts[2])
    first = [bit + 2 * h - s.p for bit, h in zip(bits_of(coins), high, strict=True)]
    return w, parts[1], [first] + centred(s.p, polynomials(s, s.small, parts[3]))


# Keys, encryption, decryption

def dot(xs, ys):
    """The sum of the products of two lists of polynomials."""
    products = [ring.product(x, y) for x, y in zip(xs, ys, strict=True)]
    return functools.reduce(ring.add, products)


@functools.lru_cache(maxsize=32)
def public_value(s, mu, gamma):
    """b = A r + r' in 0 to q - 1."""
    r, r_prime = key_secrets(s, gamma)
    return [ring.modulo(s.q, ring.add(dot(row, r), rest)) for row, rest in zip(matrix(s, mu), r_prime)]


def drop_low_bits(s, poly):
    return [c // 2**s.t for c in poly]


@functools.lru_cache(maxsize=32)
def make_public_key(s, mu, gamma):
    return string(s.k - s.t, [drop_low_bits(s, b) for b in public_value(s, mu, gamma)]) + mu


def split_public_key(s, public_key):
    """The stored polynomials and mu."""
    stored, mu = cut(public_key, s.public_key - s.seed, s.seed)
    return polynomials(s, s.k - s.t, stored), mu


def split_secret_key(s, secret_key):
    """The public key, mu, gamma and z."""
    stored, mu, gamma, z = cut(secret_key, s.public_key - s.seed, s.seed, s.seed, s.seed)
    return stored + mu, mu, gamma, z


def pad(s, message):
    """The message, one byte 01, then zeros."""
    return message + b"\x01" + bytes(s.padded - len(message) - 1)


def unpad(padded):
    """The message of a padded message, or None where its last non-zero byte is not 01."""
    body = padded.rstrip(b"\x00")
    return body[:-1] if body.endswith(b"\x01") else None


def xor(a, b):
    return bytes(x ^ y for x, y in zip(a, b, strict=True))


def errors_of(s, padded, mask):
    """e_1 to e_(l+1)."""
    return centred(s.p, polynomials(s, s.small, xor(padded, mask)))


@functools.lru_cache(maxsize=32)
def without_errors(s, public_key, coins):
    """C_1 to C_l, then D, before their errors are added."""
    stored, mu = split_public_key(s, public_key)
    w, _, secrets = coins_stream(s, coins)
    p_values = [[2**s.t * c + d for c, d in zip(poly, low)] for poly, low in zip(stored, w, strict=True)]
    p_values[0][0] += s.g
    columns = zip(*matrix(s, mu))
    return [dot(column, secrets) for column in columns] + [dot(p_values, secrets)]


def encrypt_padded(s, public_key, coins, padded):
    errors = errors_of(s, padded, coins_stream(s, coins)[1])
    sums = map(ring.add, without_errors(s, public_key, coins), errors)
    return string(s.k, sums)


@functools.lru_cache(maxsize=8)
def difference_value(s, secret_key, ciphertext):
    """V = D - sum of C_j r_j, in 0 to q - 1."""
    *c, d = polynomials(s, s.k, ciphertext)
    r, _ = key_secrets(s, split_secret_key(s, secret_key)[2])
    return ring.modulo(s.q, ring.subtract(d, dot(c, r)))


def rounded_bits(q, values):
    return [(v + q // 4) // (q // 2) % 2 for v in values]


def recovered_coins(s, secret_key, ciphertext):
    """The coins found by rounding, or None where a length is wrong."""
    if (len(secret_key), len(ciphertext)) != (s.secret_key, s.ciphertext):
        return None
    bits = rounded_bits(s.q, difference_value(s, secret_key, ciphertext))
    return ring.pack(1, bits[:8 * s.coins])


class Refused(Exception):
    """A refusal, with its number in the paper's table."""

    def __init__(self, number):
        super().__init__(number)
        self.number = number


def refuse(number, when):
    if when:
        raise Refused(number)


def shifted_errors(q, p, errors):
    """The errors plus p modulo q, refused where one is too large."""
    out = [ring.modulo(q, [c + p for c in e]) for e in errors]
    refuse(5, any(c > 2 * p - 1 for e in out for c in e))
    return out


def decrypt_padded(s, secret_key, ciphertext):
    """The recovered coins and the padded message."""
    coins = recovered_coins(s, secret_key, ciphertext)
    rest = without_errors(s, split_secret_key(s, secret_key)[0], coins)
    u = shifted_errors(s.q, s.p, map(ring.subtract, polynomials(s, s.k, ciphertext), rest))
    return coins, xor(string(s.small, u), coins_stream(s, coins)[1])


def digest(s, coins):
    return s.run(coins + b"\x04", s.coins)


def shared_key(s, coins, ciphertext):
    return s.run(coins + ciphertext, s.coins)


# Noise

@functools.lru_cache(maxsize=32)
def noise_of(s, mu, gamma, coins, message):
    """The noise, over the integers modulo X^n + 1."""
    r, r_prime = key_secrets(s, gamma)
    w, mask, secrets = coins_stream(s, coins)
    *e, last = errors_of(s, pad(s, message), mask)
    low = [[c % 2**s.t for c in b] for b in public_value(s, mu, gamma)]
    x = [ring.subtract(ring.add(*both), dropped) for *both, dropped in zip(w, r_prime, low, strict=True)]
    return ring.subtract(ring.add(dot(x, secrets), last), dot(e, r))


def is_clear(s, noise):
    return all(-s.q < 4 * c < s.q for c in noise)


# The calls: each takes its inputs by name, at lengths that are right, and gives its outputs and the
# values that it returns. Of a value that may differ from one correct program to another all right ones
# are listed, so of every other just one.

def keygen(s, mu, gamma, z):
    public_key = make_public_key(s, mu, gamma)
    return {"public_key": public_key, "secret_key": public_key + gamma + z}, {}


def encrypt(s, public_key, coins, message):
    return {"ciphertext": encrypt_padded(s, public_key, coins, pad(s, message))}, {}


def encrypt_each(s, count, public_keys, coins_list, message):
    keys, several = items(public_keys, s.public_key), items(coins_list, s.coins)
    refuse(14, len(set(several)) < count)
    made = [encrypt_padded(s, key, coins, pad(s, message)) for key, coins in zip(keys, several, strict=True)]
    return {"ciphertexts": b"".join(made)}, {}


def decrypt(s, secret_key, ciphertext):
    coins, padded = decrypt_padded(s, secret_key, ciphertext)
    message = unpad(padded)
    refuse(6, message is None)
    return {"coins": coins, "message": message.ljust(s.message, b"\x00")}, {"message_len": [len(message)]}


def encaps(s, public_key, coins):
    ciphertext = encrypt_padded(s, public_key, coins, pad(s, digest(s, coins)))
    return {"key": shared_key(s, coins, ciphertext), "ciphertext": ciphertext}, {}


def decaps(s, secret_key, ciphertext):
    coins, padded = decrypt_padded(s, secret_key, ciphertext)
    refuse(7, padded != pad(s, digest(s, coins)))
    return {"key": shared_key(s, coins, ciphertext)}, {}


def made_seeds(s, secret_key):
    """mu and gamma of a secret key whose public key they give."""
    public_key, mu, gamma, _ = split_secret_key(s, secret_key)
    refuse(8, public_key != make_public_key(s, mu, gamma))
    return mu, gamma


def noise(s, secret_key, coins, message):
    values = noise_of(s, *made_seeds(s, secret_key), coins, message)
    return {}, {"clear": [int(is_clear(s, values))], "largest": [ring.largest(values)]}


def choose(s, secret_key, message, coins_list):
    mu, gamma = made_seeds(s, secret_key)
    places = [i for i, coins in enumerate(items(coins_list, s.coins))
              if is_clear(s, noise_of(s, mu, gamma, coins, message))]
    refuse(9, not places)
    return {}, {"place": places}


@dataclass(frozen=True)
class Call:
    """A C call: the length of its work area, its inputs and outputs in the order of its arguments, and
    what it returns besides the status. An input is bytes, and a number where it is the count."""
    make: Callable
    work: Callable
    inputs: tuple
    outputs: tuple = ()
    values: tuple = ()


# A polynomial of A shares its room with a stream that is not read any more, that of gamma or of the coins, and in the
# noise with the one of the coins, which comes later; in decryption the mask is kept, and the polynomial lies behind it.
def keygen_work(s):
    return max(s.gamma_stream, s.size(1, s.k))


def encrypt_work(s):
    return max(sum(s.coins_parts), s.size(1, s.k))


def decrypt_work(s):
    w, mask, h, rest = s.coins_parts
    return w + mask + max(h + rest, s.size(1, s.k))


def noise_work(s):
    return s.gamma_stream + encrypt_work(s)


CALLS = {
    "keygen": Call(keygen, keygen_work, ("mu", "gamma", "z"), ("public_key", "secret_key")),
    "encrypt": Call(encrypt, encrypt_work, ("public_key", "coins", "message"), ("ciphertext",)),
    "encrypt_each": Call(encrypt_each, encrypt_work, ("count", "public_keys", "coins_list", "message"),
                         ("ciphertexts",)),
    "decrypt": Call(decrypt, decrypt_work, ("secret_key", "ciphertext"), ("coins", "message"), ("message_len",)),
    "encaps": Call(encaps, encrypt_work, ("public_key", "coins"), ("key", "ciphertext")),
    "decaps": Call(decaps, decrypt_work, ("secret_key", "ciphertext"), ("key",)),
    "noise": Call(noise, noise_work, ("secret_key", "coins", "message"), (), ("clear", "largest")),
    "choose": Call(choose, noise_work, ("secret_key", "message", "coins_list"), (), ("place",)),
}

MOST_COINS = 8
MOST_RECIPIENTS = 12

# What the items of each list are.
LISTS = {"public_keys": "public_key", "coins_list": "coins", "ciphertexts": "ciphertext"}


def length(s, name, count=None):
    """The exact length of a slice, of a list that of count items; of a message that goes in, the greatest."""
    if name in LISTS:
        return count * length(s, LISTS[name])
    fields = {"mu": s.seed, "gamma": s.seed, "z": s.seed, "key": s.coins}
    return fields[name] if name in fields else getattr(s, name)


def slices(inputs):
    """The inputs that are bytes."""
    return {key: data for key, data in inputs.items() if key != "count"}


def input_fits(s, name, data, count):
    """Whether an input passes the check of refusal 2; a call that takes no count has lists of 1 to
    MOST_COINS items."""
    if name == "message":
        return True
    counts = range(1, MOST_COINS + 1) if count is None else [count]
    return len(data) in [length(s, name, some) for some in counts]


@dataclass(frozen=True)
class Answer:
    """All that a call leaves: values has a list of the right ones for each value returned."""
    status: int
    values: dict
    outputs: dict
    work: bytes


def answer(name, s, inputs, outputs, work):
    """The whole answer of a call with the parameters s, or None for a set that there is none of; the
    inputs and outputs are given by name, as they are at entry."""
    this = CALLS[name]
    assert tuple(inputs) == this.inputs and tuple(outputs) == this.outputs
    zeros = {value: [0] for value in this.values}
    if s is None:
        return Answer(1, zeros, outputs, work)
    enough = len(work) >= this.work(s)
    wiped = bytes(len(work)) if enough else work
    count = inputs.get("count")
    try:
        refuse(13, count is not None and not 1 <= count <= MOST_RECIPIENTS)
        refuse(2, not all(input_fits(s, key, data, count) for key, data in slices(inputs).items()))
        refuse(3, len(inputs.get("message", b"")) > s.message)
        refuse(4, not enough or any(len(data) != length(s, key, count) for key, data in outputs.items()))
        made, values = this.make(s, **inputs)
    except Refused as refusal:
        return Answer(refusal.number, zeros, outputs, wiped)
    return Answer(0, values, made, wiped)


def call(name, number, inputs, outputs, work):
    """The whole answer of the C call kindi_name of a set's number."""
    return answer(name, SETS.get(number), inputs, outputs, work)


# The check of this file

# The columns of the paper's table of parameter sets.
TABLE = {
    1: (32, 32, 1184, 1248, 1792, 384),
    2: (64, 64, 1472, 1600, 2496, 384),
    3: (64, 64, 1728, 1856, 2688, 576),
    4: (64, 64, 2368, 2496, 3328, 512),
}

# The lengths of work areas that docs/WORK-AREAS.md lists, set by set; the paper's bound on them.
WORK_TABLE = {
    ("keygen",): (576, 832, 896, 832),
    ("encrypt", "encrypt_each", "encaps"): (832, 832, 1024, 1024),
    ("decrypt", "decaps"): (1024, 1472, 1600, 1536),
    ("noise", "choose"): (1408, 1344, 1792, 1792),
}
MOST_WORK = 65536

# Sizes at which noise that is not clear is common; coins and seeds differ in length.
PRACTICE = [
    Parameters(8, 1, 2, 1, 7, 3, 1, hashlib.shake_128),
    Parameters(16, 2, 4, 2, 9, 5, 2, hashlib.shake_256),
    Parameters(8, 3, 2, 2, 8, 2, 1, hashlib.shake_256),
]


def ask(name, s, inputs, work=None):
    """The answer of a call with outputs of the right lengths, and a work area that is long enough."""
    this = CALLS[name]
    inputs = dict(zip(this.inputs, inputs, strict=True))
    outputs = {key: b"\xa5" * length(s, key, inputs.get("count")) for key in this.outputs}
    work = b"\x5a" * (this.work(s) + 3) if work is None else work
    got = answer(name, s, inputs, outputs, work)
    assert got.work == bytes(len(work)), name
    if got.status:
        assert got.outputs == outputs and set(map(tuple, got.values.values())) <= {(0,)}, name
    return got


def made_keys(s, rng):
    got = ask("keygen", s, [rng.randbytes(s.seed) for _ in range(3)])
    assert got.status == 0
    return got.outputs["public_key"], got.outputs["secret_key"]


def check_lengths():
    for number, s in SETS.items():
        found = (s.seed, s.coins, s.public_key, s.secret_key, s.ciphertext, s.padded)
        assert found == TABLE[number], (number, found)
    work = {name: lengths for names, lengths in WORK_TABLE.items() for name in names}
    assert work == {name: tuple(map(this.work, SETS.values())) for name, this in CALLS.items()}
    assert max(map(max, work.values())) <= MOST_WORK


def check_examples():
    """The paper's examples of the scheme; those of bit strings and products are in ring.py."""
    assert rounded_bits(2**14, [0, 4095, 4096, 12287, 12288, 16383]) == [0, 0, 1, 1, 0, 0]
    q, p = 2**14, 4
    assert shifted_errors(q, p, [[q - 4, 3]]) == [[0, 7]]
    for wrong in (4, q - 5):
        assert refusal_of(lambda: shifted_errors(q, p, [[wrong]])) == 5
    assert drop_low_bits(SETS[1], [16383]) == [4095]
    for s in [*SETS.values(), *PRACTICE]:
        assert pad(s, b"") == b"\x01" + bytes(s.padded - 1)
        assert unpad(pad(s, b"")) == b"" and unpad(bytes(s.padded)) is None and unpad(b"\x01\x02\x00") is None
        # Strictly between -q/4 and q/4.
        ends = [-s.q // 4 - 1, -s.q // 4, -s.q // 4 + 1, 0, s.q // 4 - 1, s.q // 4, s.q // 4 + 1]
        assert [is_clear(s, [0, end]) for end in ends] == [False, False, True, True, True, False, False]


def refusal_of(run):
    try:
        run()
    except Refused as refusal:
        return refusal.number
    return 0


def check_value(s, secret_key, coins, message, ciphertext):
    """V is g s_1 plus the noise, modulo q, for made keys."""
    _, mu, gamma, _ = split_secret_key(s, secret_key)
    first = coins_stream(s, coins)[2][0]
    expected = [s.g * c + d for c, d in zip(first, noise_of(s, mu, gamma, coins, message), strict=True)]
    assert difference_value(s, secret_key, ciphertext) == ring.modulo(s.q, expected)


def check_pair(s, keys, coins, message):
    """One pair under made keys: a clear one comes back, as a message and as a shared key. Whether it is
    clear, and its ciphertext."""
    public_key, secret_key = keys
    ciphertext = ask("encrypt", s, (public_key, coins, message)).outputs["ciphertext"]
    check_value(s, secret_key, coins, message, ciphertext)
    told = ask("noise", s, (secret_key, coins, message))
    assert told.status == 0
    opened = ask("decrypt", s, (secret_key, ciphertext))
    if told.values["clear"] == [1]:
        padding = bytes(s.message - len(message))
        assert (opened.status, opened.values) == (0, {"message_len": [len(message)]})
        assert opened.outputs == {"coins": coins, "message": message + padding}
    shared = ask("encaps", s, (public_key, coins)).outputs
    if ask("noise", s, (secret_key, coins, digest(s, coins))).values["clear"] == [1]:
        assert ask("decaps", s, (secret_key, shared["ciphertext"])).outputs == {"key": shared["key"]}
    return told.values["clear"] == [1], ciphertext


def check_strict(s, secret_key, ciphertext):
    """A ciphertext decrypts to a pair just where the recovered coins and a message encrypt to it."""
    public_key = split_secret_key(s, secret_key)[0]
    opened = ask("decrypt", s, (secret_key, ciphertext))
    assert opened.status in (0, 5, 6)
    if opened.status == 0:
        message = opened.outputs["message"][:opened.values["message_len"][0]]
        again = ask("encrypt", s, (public_key, opened.outputs["coins"], message))
        assert again.outputs == {"ciphertext": ciphertext}
    shared = ask("decaps", s, (secret_key, ciphertext))
    assert shared.status in (0, 5, 7)
    coins = recovered_coins(s, secret_key, ciphertext)
    same = ask("encaps", s, (public_key, coins)).outputs == {**shared.outputs, "ciphertext": ciphertext}
    assert same == (shared.status == 0)


def check_late_refusals(number, s, rng):
    """The refusals 5 to 8, each as the paper's table reaches it."""
    keys = public_key, secret_key = made_keys(s, rng)
    coins = rng.randbytes(s.coins)
    clear, ciphertext = check_pair(s, keys, coins, b"")
    assert clear, number
    # A coefficient of D raised by 2p whose V stays in its rounding interval.
    raised = polynomials(s, s.k, ciphertext)
    values = difference_value(s, secret_key, ciphertext)
    interval = [(v + s.q // 4) // (s.q // 2) for v in (values[5], values[5] + 2 * s.p)]
    assert interval[0] == interval[1], number
    raised[-1][5] += 2 * s.p
    raised = string(s.k, raised)
    assert recovered_coins(s, secret_key, raised) == coins
    assert ask("decrypt", s, (secret_key, raised)).status == 5
    assert ask("decaps", s, (secret_key, raised)).status == 5
    blank = encrypt_padded(s, public_key, coins, bytes(s.padded))
    assert ask("decrypt", s, (secret_key, blank)).status == 6
    assert ask("decaps", s, (secret_key, ciphertext)).status == 7
    flipped = bytes([secret_key[0] ^ 1]) + secret_key[1:]
    assert ask("noise", s, (flipped, coins, b"")).status == 8
    assert ask("choose", s, (flipped, b"", coins)).status == 8
    assert ask("choose", s, (secret_key, b"", coins * MOST_COINS)).values == {"place": list(range(MOST_COINS))}


def check_early_refusals():
    """The paper's examples of the refusals 1 to 4, several of them at a time."""
    s, seed, work = SETS[1], bytes(32), b"\x5a" * 5000
    outputs = {"public_key": bytes(s.public_key), "secret_key": bytes(s.secret_key)}

    def made(number, mu, gamma, z, room=work):
        got = call("keygen", number, {"mu": mu, "gamma": gamma, "z": z}, outputs, room)
        assert got.status == 0 or got.outputs == outputs
        return got.status, got.work

    assert made(7, seed[1:], seed, seed) == (1, work)
    assert made(1, seed[1:], seed, seed) == (2, bytes(5000))
    assert made(1, seed, seed, seed + b"0", work[:575]) == (2, work[:575])
    assert made(1, seed, seed, seed, work[:575]) == (4, work[:575])
    assert made(1, seed, seed, seed, work[:576]) == (0, bytes(576))
    inputs = {"public_key": bytes(s.public_key), "coins": seed, "message": bytes(384)}
    assert call("encrypt", 1, inputs, {"ciphertext": bytes(1791)}, work).status == 3
    inputs["message"] = bytes(383)
    assert call("encrypt", 1, inputs, {"ciphertext": bytes(1791)}, work) == Answer(
        4, {}, {"ciphertext": bytes(1791)}, bytes(5000))
    _, secret_key = made_keys(s, random.Random(2))
    for count, status in ((0, 2), (1, 0), (8, 0), (9, 2)):
        assert ask("choose", s, (secret_key, b"", seed * count)).status == status
    for odd in (31, 33, 257):
        assert ask("choose", s, (secret_key, b"", bytes(odd))).status == 2
    for name in ("decrypt", "decaps"):
        assert ask(name, s, (secret_key, bytes(1791))).status == 2
        assert ask(name, s, (secret_key[1:], bytes(1792))).status == 2


def check_order():
    """A call in which all is wrong is mended one thing after another, and meets the refusals in their order."""
    s, number = SETS[1], 7
    given = {"count": 0, "public_keys": bytes(1), "coins_list": bytes(1), "message": bytes(384)}
    outputs, work = {"ciphertexts": bytes(1)}, b"\x5a" * 831

    def status():
        got = call("encrypt_each", number, given, outputs, work)
        assert got.status == 0 or got.outputs == outputs
        assert got.work == (work if got.status == 1 or len(work) < 832 else bytes(len(work)))
        return got.status

    assert status() == 1
    number = 1
    for count, expected in ((0, 13), (13, 13), (256, 13), (2**32 - 1, 13), (12, 2)):
        given["count"] = count
        assert status() == expected
    given["public_keys"] = bytes(12 * s.public_key)
    assert status() == 2
    given["coins_list"] = bytes(12 * 32)
    assert status() == 3
    given["message"] = bytes(383)
    assert status() == 4
    outputs["ciphertexts"] = bytes(12 * 1792)
    assert status() == 4
    work += b"\x5a"
    assert status() == 14
    given["coins_list"] = b"".join(bytes([i]) * 32 for i in range(12))
    assert status() == 0


def check_recipients(s, rng, count):
    """One message for several recipients, two of which have the same key: each part is the ciphertext of
    its key and coins alone, and opens to them where they are clear. Equal coins are refused at any two
    places. Whether all were clear."""
    pairs = [made_keys(s, rng) for _ in range(count - 1)]
    pairs.insert(rng.randrange(count), pairs[0])
    keys = b"".join(public_key for public_key, _ in pairs)
    coins = [bytes([i]) + rng.randbytes(s.coins - 1) for i in range(count)]
    message = rng.randbytes(rng.randint(0, s.message))
    got = ask("encrypt_each", s, (count, keys, b"".join(coins), message))
    clear, parts = zip(*(check_pair(s, pair, one, message) for pair, one in zip(pairs, coins, strict=True)))
    assert (got.status, got.outputs) == (0, {"ciphertexts": b"".join(parts)})
    for i, j in itertools.combinations(range(count), 2):
        equal = [coins[i] if place == j else one for place, one in enumerate(coins)]
        assert ask("encrypt_each", s, (count, keys, b"".join(equal), message)).status == 14
    return all(clear)


def check_practice(s, rng):
    """Pairs that are clear and pairs that are not, coins to choose from, and ciphertexts that nobody
    made. Which of the outcomes were met."""
    met = set()
    keys = made_keys(s, rng)
    dull = None
    for _ in range(40):
        coins, message = rng.randbytes(s.coins), rng.randbytes(rng.randint(0, s.message))
        clear, ciphertext = check_pair(s, keys, coins, message)
        met.add(("clear", clear))
        if not clear:
            dull = coins, message
        damaged = polynomials(s, s.k, ciphertext)
        for _ in range(rng.randint(0, 2)):
            damaged[rng.randint(0, s.l)][rng.randrange(s.n)] += rng.choice((-1, 1, 2 * s.p, s.g))
        check_strict(s, keys[1], string(s.k, damaged))
        check_strict(s, rng.randbytes(s.secret_key), string(s.k, damaged))
        several = [rng.randbytes(s.coins) for _ in range(rng.randint(1, MOST_COINS))]
        got = ask("choose", s, (keys[1], message, b"".join(several)))
        clears = [i for i, one in enumerate(several)
                  if ask("noise", s, (keys[1], one, message)).values["clear"] == [1]]
        assert (got.status, got.values["place"]) == ((0, clears) if clears else (9, [0]))
    if dull is not None:
        coins, message = dull
        assert ask("choose", s, (keys[1], message, coins)).status == 9
        met.add("refusal 9")
    return met


def check_itself():
    """A failure is an exception."""
    rng = random.Random(1)
    check_lengths()
    check_examples()
    check_early_refusals()
    check_order()
    for number, s in SETS.items():
        check_late_refusals(number, s, rng)
        assert check_recipients(s, rng, 3), number
        keys = made_keys(s, rng)
        for size in (1, s.message // 2, s.message):
            clear, ciphertext = check_pair(s, keys, rng.randbytes(s.coins), rng.randbytes(size))
            assert clear, number
            check_strict(s, keys[1], ciphertext)
    for s in PRACTICE:
        check_recipients(s, rng, MOST_RECIPIENTS)
    met = set().union(*(check_practice(s, rng) for s in PRACTICE))
    assert met == {("clear", True), ("clear", False), "refusal 9"}, met


if __name__ == "__main__":
    check_itself()
    print("the scheme of the second implementation: lengths, examples, round trips and refusals are the paper's")
