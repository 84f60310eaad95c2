#!/usr/bin/env python3
"""The scheme's calls beside the second implementation, on random seeds, coins, messages, keys, ciphertexts
and numbers of recipients, in every set, at lengths that mostly fit, at addresses of every remainder by 8.

usage: scheme_random.py [SEED [CALLS]]
"""

import random

from scheme import NAMES, compare, flipped, kindi, load, tally
from support import main, repeat

SEED = 20170918
CALLS = 1500

# How many seeds key pairs are made of, so that the second implementation meets each often.
SEEDS = 4


def content(rng, size):
    """Mostly random bytes; now and then all the same, or zeros round a single one."""
    part = rng.random()
    if part < 0.85:
        return rng.randbytes(size)
    if part < 0.95 or size == 0:
        return rng.choice((b"\x00", b"\xff", b"\x01", b"\x80")) * size
    place = rng.choice((0, size - 1, rng.randrange(size)))
    return bytes(rng.randint(1, 255) if i == place else 0 for i in range(size))


def message_length(rng, s):
    part = rng.random()
    if part < 0.4:
        return rng.randint(0, s.message)
    return rng.choice((0, 1, 2, s.coins - 1, s.coins, s.coins + 1, s.message - 1, s.message, s.message, s.message + 1))


def work_length(rng, needed):
    part = rng.random()
    if part < 0.5:
        return needed
    if part < 0.9:
        return needed + rng.choice((1, 2, 7, 8, 63, rng.randint(1, 5000)))
    return rng.choice((needed - 1, needed - 1, rng.randrange(needed), 0, kindi.MOST_WORK))


def key_seed(rng, s):
    return random.Random(rng.randrange(SEEDS)).randbytes(s.seed)


def public_key(rng, s, _):
    """A made public key, or bytes that nobody made: an encryption answers for both."""
    if rng.random() < 0.5:
        return kindi.make_public_key(s, key_seed(rng, s), key_seed(rng, s))
    return content(rng, s.public_key)


def secret_key(rng, s, _):
    """A made secret key mostly, or one whose bytes do not belong together."""
    part = rng.random()
    if part < 0.05:
        return content(rng, s.secret_key)
    mu, gamma = key_seed(rng, s), key_seed(rng, s)
    public = kindi.make_public_key(s, mu, gamma) if part < 0.95 else content(rng, s.public_key)
    return public + gamma + content(rng, s.seed)


def ciphertext(rng, s, inputs):
    """A message or a shared key that is encrypted to the secret key, at times altered; or any bytes."""
    part = rng.random()
    if part < 0.1:
        return content(rng, s.ciphertext)
    coins = content(rng, s.coins)
    message = kindi.digest(s, coins) if part < 0.5 else content(rng, min(message_length(rng, s), s.message))
    made = kindi.encrypt_padded(s, inputs["secret_key"][:s.public_key], coins, kindi.pad(s, message))
    return made if part < 0.9 else flipped(made, rng.randrange(8 * len(made)))


def count(rng, *_):
    """A number of recipients, mostly a small one; now and then one that is not taken."""
    most = kindi.MOST_RECIPIENTS
    if rng.random() < 0.05:
        return rng.choice((0, most + 1, 256, rng.randrange(2**32)))
    return rng.choice((1, 2, 2, 3, 3, rng.randint(1, most)))


def items(inputs):
    """How many items the lists of a call have: the count, or one too many where it is far too large."""
    return min(inputs.get("count", 0), kindi.MOST_RECIPIENTS + 1)


def public_keys(rng, s, inputs):
    return b"".join(public_key(rng, s, inputs) for _ in range(items(inputs)))


def coins_list(rng, s, inputs):
    """Coins of which at times two are equal, and at times two are one bit apart."""
    size = items(inputs) if "count" in inputs else rng.choice((1, 1, 2, 3, kindi.MOST_COINS))
    several = [content(rng, s.coins) for _ in range(size)]
    if len(several) > 1 and rng.random() < 0.4:
        one, other = rng.sample(range(len(several)), 2)
        several[one] = rng.choice((several[other], flipped(several[other], rng.randrange(8 * s.coins))))
    return b"".join(several)


CONTENTS = {
    "count": count,
    "message": lambda rng, s, _: content(rng, message_length(rng, s)),
    "public_key": public_key,
    "public_keys": public_keys,
    "secret_key": secret_key,
    "ciphertext": ciphertext,
    "coins_list": coins_list,
}


def input_contents(rng, s, this):
    """The inputs of a call, which may depend on those before."""
    inputs = {}
    for key in this.inputs:
        inputs[key] = CONTENTS[key](rng, s, inputs) if key in CONTENTS else content(rng, kindi.length(s, key))
    return inputs


def resized(rng, data):
    """The same bytes with some less or more at the end."""
    if rng.random() < 0.5:
        return data[:max(0, len(data) - rng.choice((1, 1, 8, len(data))))]
    return data + rng.randbytes(rng.choice((1, 1, 8)))


def one_call(rng, library):
    """Makes one call; its status."""
    name, number = rng.choice(NAMES), rng.choice(list(kindi.SETS))
    this, s = kindi.CALLS[name], kindi.SETS[number]
    inputs = input_contents(rng, s, this)
    outputs = {key: content(rng, kindi.length(s, key, items(inputs))) for key in this.outputs}
    for given in (inputs, outputs):
        if given and rng.random() < 0.04:
            key = rng.choice(list(kindi.slices(given)))
            given[key] = resized(rng, given[key])
    if rng.random() < 0.02:
        number = rng.choice((0, 5, rng.randrange(2**32)))
    return compare(library, name, number, inputs, outputs, content(rng, work_length(rng, this.work(s))), rng)


def test():
    seed, statuses = repeat(one_call, load(), SEED, CALLS)
    return f"{tally(statuses)} (seed {seed})"


main(test)
