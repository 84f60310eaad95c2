"""The scheme's calls from Python: one call through the C interface, and its whole answer beside the
second implementation's."""

import ctypes
import itertools
import sys
from collections import Counter

from support import Guarded, ROOT, check, load_library, spread

sys.path.insert(0, str(ROOT / "tests"))

from second import kindi  # noqa: E402

NAMES = tuple(kindi.CALLS)

# What a call returns through a pointer, besides its status.
VALUES = {"message_len": ctypes.c_size_t, "clear": ctypes.c_uint32, "largest": ctypes.c_uint32,
          "place": ctypes.c_uint32}

# What such a value is before the call: none that a call returns.
UNTOUCHED = 0x5AA5F00F


def load():
    library = load_library()
    for name in NAMES:
        getattr(library, f"kindi_{name}").restype = ctypes.c_uint32
    return library


def tally(statuses):
    """How many calls had each status, in words."""
    counts = Counter(statuses)
    listed = ", ".join(f"{count} of status {status}" for status, count in sorted(counts.items()))
    return f"{counts.total()} calls of the scheme agree with the second implementation: {listed}"


def statuses_of(parts, trial):
    """The statuses of all calls of a test's parts, each of which takes the trial of a set and of its name. The
    longest parts of the largest sets come first, so that no processor waits for another at the end."""
    def one_part(item):
        part, number = item
        begun = trial(number, part.__name__)
        part(begun)
        return begun.statuses

    return sum(spread(one_part, itertools.product(parts, sorted(kindi.SETS, reverse=True))), [])


def describe(name, number, inputs, outputs, work):
    slices = {**kindi.slices(inputs), **outputs, "work": work}
    lengths = ", ".join(f"{key} {len(data)}" for key, data in slices.items())
    count = f", count {inputs['count']}" if "count" in inputs else ""
    return f"kindi_{name}, set {number}{count}, lengths {lengths}"


def flipped(data, bit):
    """The same bytes with one bit changed, bit 0 of each byte first."""
    place = bit // 8
    return data[:place] + bytes([data[place] ^ 1 << bit % 8]) + data[place + 1:]


def differences(found, expected):
    """Where two strings of the same length differ, in words."""
    at = [i for i, (x, y) in enumerate(zip(found, expected, strict=True)) if x != y]
    return f"{len(at)} of {len(expected)} bytes, first byte {at[0]}: {found[at[0]]:02x} and not {expected[at[0]]:02x}"


def invoke(library, name, number, inputs, outputs, work, rng=None):
    """Makes one call on guarded buffers with the given contents, and gives its answer. Inputs have to
    stay as they were. With a random source the buffers are at random addresses, and of a slice of length
    0 the pointer is sometimes NULL."""
    given = kindi.slices(inputs)
    slices = {**{("in", key): data for key, data in given.items()},
              **{("out", key): data for key, data in outputs.items()}, ("work", ""): work}
    rooms, words = {}, {}
    for key, data in slices.items():
        rooms[key] = Guarded(len(data), rng.randrange(8) if rng else 0, data)
        null = not data and (rng is None or rng.random() < 0.5)
        words[key] = [None if null else rooms[key].pointer(), ctypes.c_size_t(len(data))]
    values = {key: VALUES[key](UNTOUCHED) for key in kindi.CALLS[name].values}
    *before, last = words.values()
    numbers = [number, *(inputs[key] for key in inputs if key not in given)]
    status = getattr(library, f"kindi_{name}")(
        *map(ctypes.c_uint32, numbers), *sum(before, []), *map(ctypes.byref, values.values()), *last)
    what = describe(name, number, inputs, outputs, work)
    for key, data in given.items():
        check(rooms["in", key].bytes() == data, f"{what}: the input {key} was changed")
    return kindi.Answer(status, {key: value.value for key, value in values.items()},
                        {key: rooms["out", key].bytes() for key in outputs}, rooms["work", ""].bytes())


def compare(library, name, number, inputs, outputs, work, rng=None):
    """Makes one call and compares all that it leaves with the second implementation; its status."""
    what = describe(name, number, inputs, outputs, work)
    found = invoke(library, name, number, inputs, outputs, work, rng)
    expected = kindi.call(name, number, inputs, outputs, work)
    check(found.status == expected.status, f"{what}: status {found.status} and not {expected.status}")
    for key, right in expected.values.items():
        check(found.values[key] in right, f"{what}: {key} is {found.values[key]} and not {right}")
    for key, data in expected.outputs.items():
        if found.outputs[key] != data:
            check(False, f"{what}, status {found.status}: {key} differs: {differences(found.outputs[key], data)}")
    if found.work != expected.work:
        check(False, f"{what}, status {found.status}: the work area at exit: {differences(found.work, expected.work)}")
    return found.status
