#!/usr/bin/env python3
"""Decryption, shared keys, the noise and the choice among coins beside the second implementation, in
every set: pairs that come back, ciphertexts altered in every polynomial, errors and rounding at the ends
of their ranges, padded messages that no message gives, keys that nobody made, damaged keys, and the
examples of the paper's table of refusals. Refusal 9 is met at the practice sizes of the second
implementation alone: in the four sets noise that is not clear is too rare with random coins."""

import functools
import itertools
import random

from scheme import compare, flipped, kindi, load, statuses_of, tally
from support import Failure, check, main

SEED = 20171130

OPENINGS = ("decrypt", "decaps")

RANDOM_BITS = 100
RANDOM_KEYS = 12


class Trial:
    """A set with a made key pair, and the statuses of the calls made."""

    def __init__(self, library, number, part):
        self.library, self.number, self.s = library, number, kindi.SETS[number]
        self.rng = random.Random(f"{SEED}, {part}, set {number}")
        self.noise = self.rng.randbytes(2**16)
        self.public_key, self.secret_key = kindi.made_keys(self.s, self.rng)
        self.statuses = []

    def content(self, size):
        start = self.rng.randrange(len(self.noise) - size)
        return self.noise[start:start + size]

    def ask(self, what, name, *inputs, number=None, work=0, outputs=None):
        """The status of one call, once all that it leaves is the second implementation's; outputs has
        the lengths that are not right, and work by how much the work area's is not."""
        this, s = kindi.CALLS[name], self.s
        given = dict(zip(this.inputs, inputs, strict=True))
        lengths = {key: kindi.length(s, key, given.get("count")) for key in this.outputs} | (outputs or {})
        rooms = {key: self.content(size) for key, size in lengths.items()}
        try:
            status = compare(self.library, name, number or self.number, given, rooms,
                             self.content(this.work(s) + work), self.rng)
        except Failure as failure:
            raise Failure(f"{what}: {failure}") from failure
        self.statuses.append(status)
        return status

    def expect(self, status, what, name, *inputs, **words):
        found = self.ask(what, name, *inputs, **words)
        check(found == status, f"set {self.number}, {what}: {name} answers {found}, and not {status}")

    def open(self, what, ciphertext, secret_key=None):
        """Decrypts, as a message and as a shared key; the two statuses."""
        return [self.ask(what, name, secret_key or self.secret_key, ciphertext) for name in OPENINGS]

    def encrypt(self, coins, padded):
        """The ciphertext of a padded message of any content."""
        return kindi.encrypt_padded(self.s, self.public_key, coins, padded)

    def bases(self):
        """The coins and the padded message of an encryption and of a shared key."""
        for shared in (False, True):
            coins = self.rng.randbytes(self.s.coins)
            message = kindi.digest(self.s, coins) if shared else self.content(self.rng.randrange(self.s.message))
            yield coins, kindi.pad(self.s, message)

    def raised(self, ciphertext, *changes):
        """The ciphertext with changes (polynomial, place, by how much) added."""
        polys = kindi.polynomials(self.s, self.s.k, ciphertext)
        for j, place, change in changes:
            polys[j][place] += change
        return kindi.string(self.s.k, polys)


# The parts of the test; each takes a trial.

def round_trips(trial):
    """Messages of each length and some contents come back, and shared keys do."""
    s, rng = trial.s, trial.rng
    lengths = (0, 1, 2, s.coins - 1, s.coins, s.coins + 1, rng.randrange(s.message), s.message - 1, s.message)
    contents = (rng.randbytes, bytes, lambda size: b"\x01" * size, lambda size: b"\xff" * size)
    for size, content in itertools.product(lengths, contents):
        coins = content(s.coins) if size == 0 else rng.randbytes(s.coins)
        message, what = content(size), f"a message of {size} bytes"
        trial.expect(0, what, "encrypt", trial.public_key, coins, message)
        trial.expect(0, what, "noise", trial.secret_key, coins, message)
        check(trial.open(what, trial.encrypt(coins, kindi.pad(s, message))) == [0, 7], f"{what} does not come back")
        trial.expect(0, "a shared key", "encaps", trial.public_key, coins)
        shared = trial.encrypt(coins, kindi.pad(s, kindi.digest(s, coins)))
        check(trial.open("a shared key", shared) == [0, 0], "a shared key does not come back")


def altered(trial):
    """Bits of a ciphertext changed, coefficients raised, polynomials exchanged."""
    s, rng = trial.s, trial.rng
    size = s.size(1, s.k)
    for coins, padded in trial.bases():
        ciphertext = trial.encrypt(coins, padded)
        ends = [8 * byte + bit for j in range(s.l + 1) for byte in (j * size, (j + 1) * size - 1) for bit in range(8)]
        for bit in ends + [rng.randrange(8 * s.ciphertext) for _ in range(RANDOM_BITS)]:
            trial.open(f"bit {bit} changed", flipped(ciphertext, bit))
        for j, change in itertools.product(range(s.l + 1), (1, 8, 2 * s.p, s.q // 4, s.q // 2)):
            for place, sign in itertools.product((0, s.n - 1, rng.randrange(s.n)), (1, -1)):
                what = f"coefficient {place} of polynomial {j} raised by {sign * change}"
                trial.open(what, trial.raised(ciphertext, (j, place, sign * change)))
        for i, j in itertools.combinations(range(s.l + 1), 2):
            polys = kindi.polynomials(s, s.k, ciphertext)
            polys[i], polys[j] = polys[j], polys[i]
            trial.open(f"polynomials {i} and {j} exchanged", kindi.string(s.k, polys))


def ends_of_ranges(trial):
    """Errors at the ends of their range, and V at the ends of the rounding intervals."""
    s = trial.s
    for coins, padded in trial.bases():
        ciphertext = trial.encrypt(coins, padded)
        errors = kindi.errors_of(s, padded, kindi.coins_stream(s, coins)[1])
        for j, place in itertools.product(range(s.l + 1), (0, 1, s.n // 2, s.n - 1)):
            for error in (-s.p - 1, -s.p, s.p - 1, s.p, 3 * s.p - 1, -3 * s.p):
                what = f"the error at {place} of polynomial {j} is {error}"
                changed = trial.raised(ciphertext, (j, place, error - errors[j][place]))
                status, _ = trial.open(what, changed)
                # Another error may also take V over an end; then the coins differ, and so do all errors.
                check(status == 5 or -s.p <= error < s.p, f"set {trial.number}, {what}: status {status}")
        values = kindi.difference_value(s, trial.secret_key, ciphertext)
        for place, end in itertools.product((0, 1, s.n // 2, s.n - 1), (s.q // 4, 3 * s.q // 4)):
            for value in (end - 1, end):
                changed = trial.raised(ciphertext, (s.l, place, value - values[place]))
                trial.open(f"V at {place} is {value}", changed)


def paddings(trial):
    """Padded messages whose end is right or wrong at every kind of place."""
    s, rng = trial.s, trial.rng
    coins = rng.randbytes(s.coins)
    places = (0, 1, s.coins - 1, s.coins, s.coins + 1, s.padded // 2, s.padded - 2, s.padded - 1)
    listed = [byte * s.padded for byte in (b"\x00", b"\x01", b"\x02", b"\xff")] + [rng.randbytes(s.padded)]
    for place, mark in itertools.product(places, (1, 2, 3, 0x80, 0x81, 0xFE, 0xFF)):
        before = rng.choice((bytes(place), rng.randbytes(place), b"\x01" * place))
        listed.append((before + bytes([mark])).ljust(s.padded, b"\x00"))
    right = kindi.pad(s, kindi.digest(s, coins))
    # Round the digest, its mark, and the end.
    bits = [8 * place + bit for place in (0, *places[2:5], s.padded - 1) for bit in range(8)]
    listed += [right] + [flipped(right, bit) for bit in bits + [rng.randrange(8 * s.padded) for _ in range(20)]]
    for padded in listed:
        status, _ = trial.open(f"padded message ending {padded.rstrip(bytes(1))[-4:].hex()}",
                                 trial.encrypt(coins, padded))
        check((status == 0) == (kindi.unpad(padded) is not None), f"set {trial.number}: status {status} of a padding")


def strangers(trial):
    """Ciphertexts that nobody made, or for another key, and secret keys that nobody made."""
    s, rng = trial.s, trial.rng
    other, _ = kindi.made_keys(s, rng)
    coins, padded = next(trial.bases())
    made = trial.encrypt(coins, padded)
    trial.open("another key's", kindi.encrypt_padded(s, other, coins, padded))
    for byte in (b"\x00", b"\xff", b"\x55"):
        trial.open("all the same", byte * s.ciphertext)
        trial.open("under a key of equal bytes", made, byte * s.secret_key)
    for _ in range(RANDOM_KEYS):
        trial.open("random bytes", rng.randbytes(s.ciphertext))
        key = rng.randbytes(s.secret_key)
        trial.open("under a random key", made, key)
        trial.open("of a random key", kindi.encrypt_padded(s, key[:s.public_key], coins, padded), key)
    trial.expect(8, "a random key", "noise", key, coins, b"")
    trial.expect(8, "a random key", "choose", key, b"", coins * 3)


def damaged_keys(trial):
    """A bit of the secret key changed: in the stored polynomials, in mu, in gamma, and in z, which
    nothing depends on."""
    s, rng = trial.s, trial.rng
    coins, padded = next(trial.bases())
    ciphertext, message = trial.encrypt(coins, padded), kindi.unpad(padded)
    ends = list(itertools.accumulate((s.public_key - s.seed, s.seed, s.seed, s.seed), initial=0))
    for first, end in itertools.pairwise(ends):
        for bit in (8 * first, 8 * end - 1, *(rng.randrange(8 * first, 8 * end) for _ in range(4))):
            what, key = f"bit {bit} of the secret key changed", flipped(trial.secret_key, bit)
            status = 0 if first == ends[3] else 8
            trial.open(what, ciphertext, key)
            trial.expect(status, what, "noise", key, coins, message)
            trial.expect(status, what, "choose", key, message, coins * 2)


def choices(trial):
    """Lists of 1 to 8 coins with messages of several lengths, and the noise of each."""
    s, rng = trial.s, trial.rng
    for count in range(1, kindi.MOST_COINS + 1):
        message = rng.randbytes(rng.choice((0, 1, s.coins, s.message)))
        several = [rng.randbytes(s.coins) for _ in range(count)]
        # Some lists have the same coins twice, all zeros or all ones.
        several[rng.randrange(count)] = rng.choice((several[0], bytes(s.coins), b"\xff" * s.coins))
        trial.expect(0, f"{count} coins", "choose", trial.secret_key, message, b"".join(several))
        for coins in several:
            trial.expect(0, "coins of a list", "noise", trial.secret_key, coins, message)


def table(trial):
    """The examples of the paper's table, 1 to 8, as they stand there for set 1, and the like in the others;
    and the like of 13 and 14, which have none."""
    s, rng, expect = trial.s, trial.rng, trial.expect
    coins, public_key, secret_key = rng.randbytes(s.coins), trial.public_key, trial.secret_key
    seeds = [rng.randbytes(s.seed) for _ in range(3)]
    empty = trial.encrypt(coins, kindi.pad(s, b""))
    inputs = {"keygen": seeds, "encrypt": (public_key, coins, b""), "encrypt_each": (1, public_key, coins, b""),
              "decrypt": (secret_key, empty), "encaps": (public_key, coins), "decaps": (secret_key, empty),
              "noise": (secret_key, coins, b""), "choose": (secret_key, b"", coins)}
    check(set(inputs) == set(kindi.CALLS), "a call has no example")
    for name, given in inputs.items():
        this = kindi.CALLS[name]
        expect(1, "set 7", name, *given, number=7)
        expect(4, "a work area a byte short", name, *given, work=-1)
        for place, key in enumerate(this.inputs):
            if key != "count":
                status, wrong = (3, bytes(s.message + 1)) if key == "message" else (2, given[place][1:])
                expect(status, f"{key} of {len(wrong)} bytes", name, *given[:place], wrong, *given[place + 1:])
        for key in this.outputs:
            expect(4, f"{key} a byte short", name, *given, outputs={key: kindi.length(s, key, 1) - 1})
    for count in (0, 9):
        expect(2, f"{count} coins to choose from", "choose", secret_key, b"", coins * count)
    for count in (0, 13):
        several = rng.randbytes(count * s.coins)
        expect(13, f"{count} recipients", "encrypt_each", count, public_key * count, several, b"")
    expect(14, "two recipients with equal coins", "encrypt_each", 2, public_key * 2, coins * 2, b"")
    values = kindi.difference_value(s, secret_key, empty)
    place = next(j for j, v in enumerate(values) if len(set(kindi.rounded_bits(s.q, [v, (v + 2 * s.p) % s.q]))) == 1)
    for name in OPENINGS:
        expect(5, "a coefficient of D raised by 2p", name, secret_key, trial.raised(empty, (s.l, place, 2 * s.p)))
    expect(6, "a padded message of zeros", "decrypt", secret_key, trial.encrypt(coins, bytes(s.padded)))
    expect(7, "an empty message", "decaps", secret_key, empty)
    expect(8, "the first bit of the key changed", "noise", flipped(secret_key, 0), coins, b"")
    expect(8, "the first bit of the key changed", "choose", flipped(secret_key, 0), b"", coins)


PARTS = (altered, round_trips, ends_of_ranges, paddings, strangers, damaged_keys, choices, table)


def test():
    return tally(statuses_of(PARTS, functools.partial(Trial, load())))


main(test)
