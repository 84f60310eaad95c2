#!/usr/bin/env python3
"""The library gives the known answers that are stored in tests/vectors/known_answers."""

import hashlib

from scheme import NAMES, invoke, kindi, load
from support import ROOT, check, main

FOLDER = ROOT / "tests" / "vectors" / "known_answers"


# What a part may leave out, since an earlier one gave it out.
KEPT = ("public_key", "secret_key", "ciphertext")


def parts(path):
    """Each part of a file: the call's name, and the text of its lines by name."""
    found = []
    for line in path.read_text().splitlines():
        if line.startswith("["):
            found.append((line.strip("[]"), {}))
        elif line and not line.startswith("#"):
            name, equals, value = line.partition(" =")
            check(equals and found, f"{path.name}: a line of no kind: {line[:60]}")
            found[-1][1][name] = value
    return found


def read(key, text, public_keys):
    """The input that a line has."""
    if key == "count":
        return int(text)
    if key == "public_keys":
        return b"".join(public_keys[int(place) - 1] for place in text.split())
    return bytes.fromhex(text)


def written(s, key, data):
    """The text that the line of an output has."""
    if key == "ciphertexts":
        return " ".join(hashlib.shake_256(one).hexdigest(32) for one in kindi.items(data, s.ciphertext))
    return data.hex()


def one_part(library, number, name, lines, above, public_keys, what):
    """Makes the call of one part; what it gives out."""
    this, s = kindi.CALLS[name], kindi.SETS[number]
    status = int(lines.get("status", 0))
    inputs = {key: read(key, lines[key], public_keys) if key in lines else above.get(key) for key in this.inputs}
    told = {"status"} if status else {*this.outputs, *this.values}
    check(set(lines) - set(this.inputs) == told and None not in inputs.values(), f"{what}: not the lines of {name}")
    room = {key: b"\xa5" * kindi.length(s, key, inputs.get("count")) for key in this.outputs}
    found = invoke(library, name, number, inputs, room, b"\x5a" * this.work(s))
    check(found.status == status, f"{what}: status {found.status}")
    check(not any(found.work), f"{what}: the work area is not all zeros")
    for key, data in found.outputs.items():
        right = data == room[key] if status else written(s, key, data) == lines[key].strip()
        check(right, f"{what}: {key} is not the known answer")
    for key, value in found.values.items():
        check(str(value) in lines.get(key, "0").split(), f"{what}: {key} is not the known answer")
    return {} if status else found.outputs


def test():
    library, count = load(), 0
    for number in kindi.SETS:
        met, above, public_keys = set(), {}, []
        for place, (name, lines) in enumerate(parts(FOLDER / f"set{number}.txt"), 1):
            made = one_part(library, number, name, lines, above, public_keys, f"set {number}, part {place} ({name})")
            above.update({key: data for key, data in made.items() if key in KEPT})
            public_keys += [data for key, data in made.items() if key == "public_key"]
            met.add(name)
            count += 1
        check(met == set(NAMES), f"set {number} has known answers of {sorted(met)}")
    return f"the library gives the {count} known answers of {len(kindi.SETS)} sets"


main(test)
