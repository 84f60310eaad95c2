#!/usr/bin/env python3
"""One message for several recipients, by the library's own calls in every set: each part is what kindi_encrypt
gives for its key, its coins and the message, whatever the other recipients, their number and their order; each
recipient decrypts its own part to its coins and the message, and no other's; equal coins are refused at any two
places, and coins one bit apart are taken, whichever bit it is; the same key may stand there more than once."""

import functools
import itertools
import random

from scheme import flipped, invoke, kindi, load, statuses_of
from support import check, main

SEED = 20190512
MOST = kindi.MOST_RECIPIENTS
EQUAL_COINS = 14


class Group:
    """The most recipients of a set: their key pairs, their coins, and a message."""

    def __init__(self, library, number, part):
        self.library, self.number, self.s = library, number, kindi.SETS[number]
        self.rng = random.Random(f"{SEED}, {part}, set {number}")
        self.statuses, self.single = [], {}
        pairs = [self.succeed("keygen", *self.draw(self.s.seed, 3)).outputs for _ in range(MOST)]
        self.public_keys = [pair["public_key"] for pair in pairs]
        self.secret_keys = [pair["secret_key"] for pair in pairs]
        self.coins = self.draw(self.s.coins, MOST)
        self.message = self.rng.randbytes(self.rng.randint(1, self.s.message))

    def draw(self, size, count):
        return [self.rng.randbytes(size) for _ in range(count)]

    def call(self, name, *inputs):
        """One call at outputs and a work area of the right lengths; a refusal leaves the outputs as they were."""
        this, s = kindi.CALLS[name], self.s
        given = dict(zip(this.inputs, inputs, strict=True))
        rooms = {key: self.rng.randbytes(kindi.length(s, key, given.get("count"))) for key in this.outputs}
        found = invoke(self.library, name, self.number, given, rooms, self.rng.randbytes(this.work(s)), self.rng)
        what = f"set {self.number}: {name}, status {found.status}"
        check(not any(found.work), f"{what}: the work area is not all zeros")
        check(found.status == 0 or found.outputs == rooms, f"{what}: an output was written")
        self.statuses.append(found.status)
        return found

    def succeed(self, name, *inputs):
        found = self.call(name, *inputs)
        check(found.status == 0, f"set {self.number}: {name} answers {found.status}")
        return found

    def encrypt(self, *inputs):
        """The ciphertext of one recipient, which is asked for once."""
        if inputs not in self.single:
            self.single[inputs] = self.succeed("encrypt", *inputs).outputs["ciphertext"]
        return self.single[inputs]

    def parts(self, what, keys, coins, message):
        """The ciphertexts of several recipients, each of which is the single call's."""
        made = self.succeed("encrypt_each", len(keys), b"".join(keys), b"".join(coins), message).outputs["ciphertexts"]
        found = kindi.items(made, self.s.ciphertext)
        for place, (part, key, one) in enumerate(zip(found, keys, coins, strict=True)):
            right = part == self.encrypt(key, one, message)
            check(right, f"set {self.number}, {what}: part {place} of {len(keys)} is not the single call's")
        return found

    def refused(self, coins, places):
        """Coins for the first recipients that are equal at some places."""
        keys = b"".join(self.public_keys[:len(coins)])
        status = self.call("encrypt_each", len(coins), keys, b"".join(coins), self.message).status
        check(status == EQUAL_COINS, f"set {self.number}, {len(coins)} recipients, equal coins at {places}: {status}")

    def changed(self, place, one):
        """The coins of all with others at a place."""
        return [*self.coins[:place], one, *self.coins[place + 1:]]


# The parts of the test; each takes a group.

def counts(group):
    """Every number of recipients with messages of several lengths."""
    s = group.s
    for count, size in itertools.product(range(1, MOST + 1), (0, 1, s.coins, s.message)):
        what = f"a message of {size} bytes"
        group.parts(what, group.public_keys[:count], group.coins[:count], group.rng.randbytes(size))


def opened(group):
    """Each recipient decrypts its own part to its coins and the message, and no other's."""
    s, message = group.s, group.message
    parts = group.parts("opened", group.public_keys, group.coins, message)
    for owner, (place, part) in itertools.product(range(MOST), enumerate(parts)):
        found = group.call("decrypt", group.secret_keys[owner], part)
        text = found.outputs["message"][:found.values["message_len"]]
        back = (found.status, found.outputs["coins"], text) == (0, group.coins[place], message)
        check(back == (owner == place), f"set {group.number}: recipient {owner}, part {place}: status {found.status}")


def independent(group):
    """A part stays as it is where the other recipients, their number or their order change."""
    s, rng, message = group.s, group.rng, group.message
    keys, coins = group.public_keys, group.coins
    parts = group.parts("at first", keys, coins, message)
    for place in range(MOST):
        others, fresh = rng.sample(keys, MOST), group.draw(s.coins, MOST)
        others[place], fresh[place] = keys[place], coins[place]
        for some_keys, some_coins in ((others, fresh), (others, coins), (keys, fresh)):
            found = group.parts(f"others beside recipient {place}", some_keys, some_coins, message)
            check(found[place] == parts[place], f"set {group.number}: part {place} changed with the other recipients")
        found = group.parts("fewer recipients", keys[place:], coins[place:], message)
        check(found == parts[place:], f"set {group.number}: the parts from {place} on changed with the count")
    order = rng.sample(range(MOST), MOST)
    found = group.parts("another order", [keys[i] for i in order], [coins[i] for i in order], message)
    check(found == [parts[i] for i in order], f"set {group.number}: the parts are not in the order of the keys")


def same_key(group):
    """The same key at some places and at all, with the longest message and an empty one."""
    for message in (b"", group.rng.randbytes(group.s.message)):
        for one, other in ((0, 1), (0, MOST - 1), (5, 6), (MOST - 2, MOST - 1)):
            keys = [group.public_keys[one if place == other else place] for place in range(MOST)]
            group.parts(f"the key of {one} at {other} too", keys, group.coins, message)
        parts = group.parts("one key for all", group.public_keys[:1] * MOST, group.coins, message)
        check(len(set(parts)) == MOST, f"set {group.number}: one key for all has equal parts")


def equal_coins(group):
    """Equal coins at any two places, among all recipients and where the second of the two is the last."""
    for one, other in itertools.combinations(range(MOST), 2):
        coins = group.changed(other, group.coins[one])
        group.refused(coins, (one, other))
        group.refused(coins[:other + 1], (one, other))
    for count in range(2, MOST + 1):
        for coins in (group.coins[:1], [bytes(group.s.coins)], [b"\xff" * group.s.coins]):
            group.refused(coins * count, "all places")


def one_bit_apart(group):
    """Coins one bit apart: every bit for two recipients, and a bit of every byte at any two places of all."""
    rng, size = group.rng, group.s.coins
    first = group.coins[0]
    for bit in range(8 * size):
        group.parts(f"bit {bit} apart", group.public_keys[:2], [first, flipped(first, bit)], group.message)
    for byte in range(size):
        one, other = rng.sample(range(MOST), 2)
        bit = 8 * byte + rng.randrange(8)
        coins = group.changed(other, flipped(group.coins[one], bit))
        group.parts(f"{one} and {other} are bit {bit} apart", group.public_keys, coins, group.message)


PARTS = (one_bit_apart, independent, opened, counts, equal_coins, same_key)


def test():
    statuses = statuses_of(PARTS, functools.partial(Group, load()))
    return (f"{len(statuses)} calls: each of several recipients has the single call's ciphertext, and equal coins are "
            f"refused {statuses.count(EQUAL_COINS)} times")


main(test)
