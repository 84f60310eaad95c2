#!/usr/bin/env python3
"""The refusals of the scheme's calls that lengths and counts decide, and that of equal coins: every slice
one byte too short, right, and one too long, in every combination and set, so that where several things are
wrong the first of the order 1, 13, 2, 3, 4, 14 has to answer; lengths that are far off; lists that are right
for another count; counts and sets that there are none of. Each call's whole answer is the second
implementation's: outputs untouched, values 0, the work area wiped or untouched. Contents are random, so that
calls whose lengths are right answer by the refusals 5 and 8 where they may."""

import itertools
import random
from dataclasses import dataclass

from scheme import NAMES, compare, kindi, load, tally
from support import main, spread

SEED = 20180405

# Numbers that are no set, some of which are one in their low 8 or 16 bits.
NO_SETS = (0, 5, 6, 7, 8, 255, 256, 257, 65536, 65537, 2**31 + 1, 2**32 - 1)

# Numbers that are no count, some of which are one in their low 8, 16 or 31 bits, or times a length are 0 in 32 bits.
NO_COUNTS = (0, 13, 14, 255, 256, 257, 268, 65536, 65537, 65548, 2**27, 2**31 - 1, 2**31, 2**31 + 1, 2**32 - 4,
             2**32 - 1)

# By how much a length is wrong: on its own far off too, by what a narrow number would not show.
BESIDE = (-1, 0, 1)
FAR = (-2, 2, 256, 65536)


@dataclass(frozen=True)
class Lists:
    """The count that a call is given, for how many items its lists have the right lengths, and whether all
    coins are the same. A call without a count has the longest list."""
    count: int | None = None
    items: int = kindi.MOST_COINS
    equal: bool = False


MOST = kindi.MOST_RECIPIENTS

# The lists that a call is made with, of right counts and of wrong ones.
RIGHT_LISTS = {name: [Lists()] for name in NAMES} | {
    "encrypt_each": [Lists(1, 1), Lists(2, 2), *(Lists(count, count, True) for count in (2, MOST - 1, MOST))]}
WRONG_LISTS = {"encrypt_each": [Lists(0, 0), Lists(MOST + 1, MOST + 1, True), Lists(2**32 - 1, 1)]}


def right_lengths(name, s, lists):
    """The right length of each slice by name, with the work area's; of a message, the greatest."""
    this = kindi.CALLS[name]
    keys = [key for key in (*this.inputs, *this.outputs) if key != "count"]
    return {**{key: kindi.length(s, key, lists.items) for key in keys}, "work": this.work(s)}


def changed(lengths, changes):
    """The lengths with a change added to each."""
    return {key: max(0, size + change) for (key, size), change in zip(lengths.items(), changes, strict=True)}


class Refusals:
    def __init__(self, library, name, number):
        self.library, self.name, self.number = library, name, number
        self.rng = random.Random(f"{SEED}, {name}, {number}")
        self.noise = self.rng.randbytes(2**17)
        self.statuses = []

    def content(self, size):
        """Bytes that are not all the same, and not the same in each call."""
        start = self.rng.randrange(len(self.noise) - size)
        return self.noise[start:start + size]

    def one_call(self, lists, lengths):
        """One call with slices of these lengths."""
        this = kindi.CALLS[self.name]
        data = {key: self.content(size) for key, size in lengths.items()} | {"count": lists.count}
        if lists.equal:
            data["coins_list"] = data["coins_list"][:1] * lengths["coins_list"]
        status = compare(self.library, self.name, self.number, {key: data[key] for key in this.inputs},
                         {key: data[key] for key in this.outputs}, data["work"], self.rng)
        self.statuses.append(status)

    def combinations(self, s, lists):
        """Every slice beside its right length, in every combination."""
        right = right_lengths(self.name, s, lists)
        for changes in itertools.product(BESIDE, repeat=len(right)):
            self.one_call(lists, changed(right, changes))

    def single_lengths(self, s, lists):
        """One slice far off and the others right; all empty; all as another set has them."""
        right = right_lengths(self.name, s, lists)
        most = kindi.MOST_COINS if lists.count is None else MOST
        for key, size in right.items():
            others = {right_lengths(self.name, other, lists)[key] for other in kindi.SETS.values()}
            counts = range(most + 2) if key in kindi.LISTS else ()
            several = {kindi.length(s, key, count) + change for count in counts for change in BESIDE}
            for wrong in sorted({0, 1, *others, *several, *(size + change for change in FAR)} - {-1}):
                self.one_call(lists, {**right, key: wrong})
                # A work area that is too short must not be written, whatever else is wrong.
                self.one_call(lists, {**right, key: wrong, "work": right["work"] - 1})
        self.one_call(lists, dict.fromkeys(right, 0))
        for other in kindi.SETS.values():
            self.one_call(lists, right_lengths(self.name, other, lists))

    def other_counts(self, s, lists):
        """Each list right for the count or for one beside it, in every combination."""
        right = right_lengths(self.name, s, lists)
        several = [key for key in right if key in kindi.LISTS]
        for changes in itertools.product(BESIDE, repeat=len(several)):
            more = {key: kindi.length(s, key, lists.items + change) for key, change in zip(several, changes)}
            self.one_call(lists, {**right, **more})

    def beside(self, lists, right):
        """All lengths right or beside that at a time, and the work area's alone."""
        for change in BESIDE:
            self.one_call(lists, changed(right, [change] * len(right)))
            self.one_call(lists, {**right, "work": right["work"] + change})

    def no_counts(self, s):
        """A count that there is none of, at lengths that are right for some number, beside that, and empty."""
        for count, items in itertools.product(NO_COUNTS, (0, 1, 2, MOST, MOST + 1)):
            lists = Lists(count, items, items > 2)
            right = right_lengths(self.name, s, lists)
            self.beside(lists, right)
            self.one_call(lists, {**right, "message": right["message"] + 1})
            self.one_call(lists, dict.fromkeys(right, 0))

    def no_set(self, lists):
        """No set, at lengths of each set that are right, beside that, and empty."""
        for s in kindi.SETS.values():
            right = right_lengths(self.name, s, lists)
            self.beside(lists, right)
            self.one_call(lists, {**right, "work": 65536})
        self.one_call(lists, dict.fromkeys(right, 0))

    def run(self):
        """All parts for the call and the set's number; the statuses."""
        s, right, wrong = kindi.SETS.get(self.number), RIGHT_LISTS[self.name], WRONG_LISTS.get(self.name, [])
        if s is None:
            for lists in right + wrong:
                self.no_set(lists)
            return self.statuses
        for lists in right + wrong:
            self.combinations(s, lists)
        for lists in right:
            self.single_lengths(s, lists)
            self.other_counts(s, lists)
        if wrong:
            self.no_counts(s)
        return self.statuses


def test():
    library = load()

    def one_item(item):
        return Refusals(library, *item).run()

    return tally(sum(spread(one_item, itertools.product(NAMES, [*NO_SETS, *kindi.SETS])), []))


main(test)
