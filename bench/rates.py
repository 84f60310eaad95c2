#!/usr/bin/env python3
"""How often an encryption with random coins is not clear, for each parameter set: by the mean and the
deviation of the noise, by its whole distribution, and for single keys. Prints a table, in a
minute; not a test, and no part of the gate.

usage: rates.py [KEYS]    how many single keys of each set to look at, 20 where no number is named

A coefficient of the noise is a sum of independent terms, if the streams are uniformly random: x + 1 of the n
products X_a·s_b of each i have the sign +, the others −, since X^n is −1; the products e_a·r_b have the
opposite signs; and the last error is added. Values less p have the mean −1/2, and b modulo 2^t is not
centred either, so a product has a mean, and the means of the products add up to a ramp over x:

    mean(x) = l (2x + 2 − n) 2^t / 4 − 1/2.

The rates of the coefficients are added: together they are at least the chance that is looked for, and here hardly
more. A tail is so far out that it is worked out at the saddle point (by
exponential tilting, for a sum of whole numbers), which agrees with exact sums at n = 64 and 128 to a
fiftieth of a bit.
"""

import math
import random
import sys
from collections import Counter
from pathlib import Path

sys.path.insert(0, str(Path(__file__).resolve().parents[1] / "tests"))

from second import kindi  # noqa: E402

# The rate that the submission claims, as a power of two.
CLAIMED = {1: -192, 2: -284, 3: -165, 4: -276}

# Random encryptions, of a key each, by which mean and deviation are measured.
SAMPLES = 1000

# A chance that is smaller than the largest by this factor, as a logarithm, adds nothing to be seen.
NOTHING = 24 * math.log(2)


def uniform(low, high):
    """The values from low to high, each as likely as the others."""
    return {value: 1 / (high - low + 1) for value in range(low, high + 1)}


def combine(operation, xs, ys):
    """The distribution of an operation on two independent values."""
    found = Counter()
    for x, weight in xs.items():
        for y, other in ys.items():
            found[operation(x, y)] += weight * other
    return found


def product(xs, ys):
    return combine(lambda x, y: x * y, xs, ys)


def moments(xs):
    mean = sum(value * weight for value, weight in xs.items())
    return mean, sum((value - mean)**2 * weight for value, weight in xs.items())


class Set:
    """The distributions of a set's values. A sender who draws coins and message at random has them all uniform; one
    who does not may have coins of zeros, so that the coefficients of s_1 are even with p taken off, and a message
    that makes every error the largest."""

    def __init__(self, number, zero_coins=False, largest_errors=False):
        s = self.s = kindi.SETS[number]
        self.small = uniform(-s.p, s.p - 1)
        self.errors = {s.p - 1: 1.0} if largest_errors else self.small
        self.low = uniform(-2**(s.t - 1), 2**(s.t - 1) - 1)
        # X less w: what a key gives to it.
        key = combine(lambda x, y: x - y, self.small, uniform(0, 2**s.t - 1))
        x = combine(lambda x, y: x + y, self.low, key)
        even = {value: 1 / s.p for value in range(-s.p, s.p, 2)}
        self.firsts = [(1, product(x, even if zero_coins else self.small)), (s.l - 1, product(x, self.small))]
        self.second = product(self.errors, self.small)

    def terms(self, x):
        """The terms of coefficient x over random keys: the sign, how many, and the distribution of each."""
        plus, minus = x + 1, self.s.n - 1 - x
        found = [(1, 1, self.errors), (-1, self.s.l * plus, self.second), (1, self.s.l * minus, self.second)]
        for count, values in self.firsts:
            found += [(1, count * plus, values), (-1, count * minus, values)]
        return found


class Key:
    """The same for one key, whose values are known; w, s and e stay random."""

    def __init__(self, dist, rng):
        s, self.dist = dist.s, dist
        mu, gamma = rng.randbytes(s.seed), rng.randbytes(s.seed)
        self.of_r, errors = kindi.key_secrets(s, gamma)
        b = kindi.public_value(s, mu, gamma)
        self.s = s
        self.of_x = [[e - c % 2**s.t for e, c in zip(*pair)] for pair in zip(errors, b)]
        values = {v for poly in self.of_x for v in poly}
        self.first = {v: product({w + v: weight for w, weight in dist.low.items()}, dist.small) for v in values}
        self.second = {v: product({v: 1.0}, dist.small) for poly in self.of_r for v in poly}

    def terms(self, x):
        found = [(1, 1, self.dist.small)]
        for sign, place in ((1, slice(0, x + 1)), (-1, slice(x + 1, None))):
            counts = Counter(v for poly in self.of_x for v in poly[place])
            found += [(sign, count, self.first[v]) for v, count in counts.items()]
            counts = Counter(v for poly in self.of_r for v in poly[place])
            found += [(-sign, count, self.second[v]) for v, count in counts.items()]
        return found


def tilted(terms, theta):
    """The logarithm of the mean of exp(theta · sum), and its first two derivatives."""
    total = first = second = 0.0
    for sign, count, values in terms:
        zero = one = two = 0.0
        for value, weight in values.items():
            by = weight * math.exp(theta * sign * value)
            zero, one, two = zero + by, one + by * sign * value, two + by * value * value
        total += count * math.log(zero)
        first += count * one / zero
        second += count * (two / zero - (one / zero)**2)
    return total, first, second


def upper_tail(terms, least):
    """The logarithm of the chance that the sum is at least so large, where that is far out; 0, a chance of 1, where
    it is not."""
    theta, (_, mean, variance) = 0.0, tilted(terms, 0.0)
    if least - mean < 2 * math.sqrt(variance):
        return 0.0
    for _ in range(60):
        total, first, second = tilted(terms, theta)
        step = (least - first) / second
        # A step that goes too far would leave the range in which the tilted mean can be had.
        theta += max(min(step, 0.02), -0.02)
        if abs(step) < 1e-12:
            break
    total, first, second = tilted(terms, theta)
    return total - theta * least - math.log((1 - math.exp(-theta)) * math.sqrt(2 * math.pi * second))


def negated(terms):
    return [(-sign, count, values) for sign, count, values in terms]


def add_logs(logs):
    most = max(logs)
    return most + math.log(sum(math.exp(one - most) for one in logs))


def rate(source):
    """The logarithm to base 2 of what the chances add up to that a coefficient is q/4 or more in absolute value.
    That is the most that some coefficient can have, and near to it, since two seldom overshoot together. Means
    are largest at the last coefficient and least at the first; going inwards, what adds nothing more is left out."""
    s, logs = source.s, []
    for places, turned in (range(s.n - 1, -1, -1), lambda terms: terms), (range(s.n), negated):
        one_side = []
        for x in places:
            one_side.append(upper_tail(turned(source.terms(x)), s.q // 4))
            if one_side[-1] < max(one_side) - NOTHING:
                break
        logs += one_side
    return add_logs(logs) / math.log(2)


def mean_and_deviation(dist, x):
    mean = variance = 0.0
    for sign, count, values in dist.terms(x):
        one, two = moments(values)
        mean, variance = mean + sign * count * one, variance + count * two
    return mean, math.sqrt(variance)


def normal_rate(s, ramp):
    """The same by a normal distribution with these means and deviations."""
    logs = []
    for mean, deviation in ramp:
        for sign in (1, -1):
            far = (s.q // 4 - sign * mean) / deviation
            logs.append(-far * far / 2 - math.log(far * math.sqrt(2 * math.pi)))
    return add_logs(logs) / math.log(2)


def measured(s, rng, ramp):
    """The mean of the noise at the end of the ramp, by the slope of least squares, and the deviation from the
    ramp, of random encryptions."""
    centre, end, square = (s.n - 1) / 2, 0.0, 0.0
    for _ in range(SAMPLES):
        mu, gamma, coins = rng.randbytes(s.seed), rng.randbytes(s.seed), rng.randbytes(s.coins)
        noise = kindi.noise_of(s, mu, gamma, coins, rng.randbytes(rng.randrange(s.message + 1)))
        slope = sum((x - centre) * v for x, v in enumerate(noise)) / sum((x - centre)**2 for x in range(s.n))
        end += slope * centre
        square += sum((v - mean)**2 for v, (mean, _) in zip(noise, ramp)) / s.n
    return end / SAMPLES, math.sqrt(square / SAMPLES)


def power(exponent):
    """A chance from its logarithm to base 2; where chances add up to more than 1 they say nothing."""
    return f"2^{exponent:.0f}" if exponent < -1 else "often"


def main():
    keys = int(sys.argv[1]) if len(sys.argv) > 1 else 20
    rng = random.Random("rates of the noise")
    print("| set | q/4 | last mean of the ramp: worked out, measured | deviation: worked out, measured "
          "| normal, mean left out | normal, with the mean | whole distribution "
          f"| {keys} single keys: worst, median, best | coins of zeros | largest errors | both | claimed |")
    print("|--|--:|--:|--:|--:|--:|--:|--:|--:|--:|--:|--:|")
    for number in kindi.SETS:
        dist = Set(number)
        s = dist.s
        ramp = [mean_and_deviation(dist, x) for x in range(s.n)]
        assert all(abs(mean - (s.l * (2 * x + 2 - s.n) * 2**s.t / 4 - 0.5)) < 1e-6 for x, (mean, _) in enumerate(ramp))
        end, deviation = measured(s, rng, ramp)
        centred = normal_rate(s, [(0, deviation) for _, deviation in ramp])
        single = sorted(rate(Key(dist, rng)) for _ in range(keys))
        print(f"| {number} | {s.q // 4} | {ramp[-1][0]:.0f}, {end:.0f} | {ramp[-1][1]:.1f}, {deviation:.1f} "
              f"| 2^{centred:.0f} | 2^{normal_rate(s, ramp):.0f} | 2^{rate(dist):.0f} "
              f"| {', '.join(f'2^{single[at]:.0f}' for at in (-1, len(single) // 2, 0))} "
              f"| {power(rate(Set(number, True)))} | {power(rate(Set(number, False, True)))} "
              f"| {power(rate(Set(number, True, True)))} | 2^{CLAIMED[number]} |", flush=True)


main()
