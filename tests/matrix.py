#!/usr/bin/env python3
"""What the source of the library says of the matrix A (02, No. 2): one function fetches it, from a stream that is begun
once and only goes on; what receives it is one polynomial long, n·k/8 bytes or 512 entries. Every array, room, sponge and
stream of the library is listed here. Texts that break this are tried too, and have to be reported.

usage: matrix.py    say every thing that is otherwise, and exit 1 where there is one
"""

import re
import sys

from source import body, code, report

# Each array, as a type or as a value, and what it receives; what begins with A receives a polynomial of A, or sums of its
# halves. Those of keccak are rows, states and tables of Keccak-f.
ARRAYS = {
    "hash sponge.rt": {"[u8; 200]": "the sponge's string"},
    "packing lib.rt": {"[u16; 8]": "none: eight coefficients that are lent to be packed"},
    "product halves.rt": {"[0; H]": "A: a sum of halves of a factor; sums", "[0; N]": "a row"},
    "product lib.rt": {"[0; 1024]": "the doubled row of the other factor"},
    "product rows.rt": {"[0; 64]": "sums"},
    "keys lib.rt": {"[0u16; 512]": "A: a polynomial", "[0u16; 1536]": "a vector: r, b"},
    "encryption lib.rt": {"[0u16; 512]": "A: a polynomial; P_i, w_i, h", "[0u16; 1536]": "a vector: s",
                          "[0u16; 2048]": "the sums of a ciphertext"},
    "decryption lib.rt": {"[0u16; 1536]": "a vector: s", "[0u16; 2048]": "the sums of a ciphertext"},
    "decryption recover.rt": {"[0u16; 1536]": "a vector: r, or C_1 to C_l", "[0u16; 512]": "D or V"},
    "decryption remainders.rt": {"[0u8; 1024]": "the packed remainders"},
    "decryption_calls decaps.rt": {"[0; 64]": "coins, and a digest"},
    "decryption_calls decrypt.rt": {"[0; 64]": "coins"},
    "noise factors.rt": {"[0u16; 512]": "values of w, of r', of b"},
    "noise lib.rt": {"[0u16; 512]": "values of b", "[0u8; 1024]": "a stored polynomial"},
    "noise sums.rt": {"[0i16; 512]": "a factor of the noise", "[0i32; 512]": "the noise"},
    "noise_calls choose.rt": {"[0; 3072]": "b"},
    "noise_calls measure.rt": {"[0; 3072]": "b"},
    "ring poly.rt": {"[0; 1024]": "the doubled row of a factor, in the ring's own product"},
    "signed lib.rt": {"[0; 1024]": "the doubled row of a factor of the noise"},
}

# The sizes that H and N, of which arrays of halves.rt are, stand for.
SIZES = {"H": [64, 128, 256], "N": [128, 256, 512]}

# Where rooms for coefficients modulo 2^16 are taken, and how long each is.
ROOMS = {
    "keys lib.rt": ["512", "1536", "1536"],
    "encryption lib.rt": ["512", "512", "1536", "2048"],
    "decryption lib.rt": ["1536", "2048"],
    "decryption recover.rt": ["1536", "1536", "512", "512"],
    "noise lib.rt": ["512"],
    "noise factors.rt": ["512"] * 6,
}

# Where a sponge is made, skipped or squeezed, and of what SHAKE is taken: nothing but matrix runs the stream of mu.
SPONGES = {"hash lib.rt": ["new", "skip", "squeeze"], "calls kem.rt": ["new", "squeeze"], "matrix lib.rt": ["new", "squeeze"]}
STREAMS = {
    "hash lib.rt": ["shake_from(rate, input)"],
    "calls shake.rt": ["shake_from(rate, input)"],
    "cipher_terms lib.rt": ["shake(p.rate, coins)"],
    "decryption lib.rt": ["shake(p.rate, coins)"],
    "decryption recover.rt": ["shake(p.rate, gamma)"],
    "keys lib.rt": ["shake(p.rate, gamma)"],
}

# The calls of the one function: the bytes that it is lent, and the room for the coefficients.
USERS = {"keys lib.rt": ["&mut work[at..end], a"], "encryption lib.rt": ["&mut work[at..end], f"]}

# What stands once in a function, and nowhere else where nothing is said of it.
ONCE = [
    ("matrix lib.rt", "add_product", "let mut s = begin(p, mu);"),
    ("matrix lib.rt", "begin", "let taken = Sponge::new(p.rate).absorb(mu);"),
    ("matrix lib.rt", "fetch", "let next = s.squeeze(bytes);"),
    ("matrix lib.rt", "add_term", "product::multiply_add(&mut sums[t..t + n], a, &v[f..f + n]);"),
    ("product lib.rt", "multiply_add", "double(b, &mut row[..end]);"),
    ("keys lib.rt", "public_vector", "let end = at + lengths::polynomial(p);"),
    ("keys lib.rt", "public_polynomials", "&mut a[..n],"),
    ("encryption lib.rt", "add_noiseless", "let end = at + lengths::polynomial(p);"),
    ("encryption lib.rt", "add_noiseless", "let f = &mut f[..n];"),
]

# Changes of the source that hold more of A, or run its stream again, and meet every contract.
EVASIONS = [
    ("keys lib.rt", "    let w = lengths::width(p);", "    let w = lengths::width(p); let whole = f(&mut [0u16; 4608]);"),
    ("keys lib.rt", "fn read_secrets", "fn whole(n: usize) -> [u16; WHOLE] { [0; WHOLE] }\nfn read_secrets"),
    ("keys lib.rt", "fn read_secrets", "fn whole(n: usize)\n    -> [[u16; 512]; 9] { g() }\nfn read_secrets"),
    ("keys lib.rt", "fn read_secrets", "fn whole(n: usize) -> [u16; 4608]\n    ensures long { 4608 ≡ length result }\n"
     "{ g(n) }\nfn read_secrets"),
    ("keys lib.rt", "    let mut r = [0u16; 1536];", "    let mut r = [0u16; 1536]; let mut w = [0u16; 2048];"),
    ("keys lib.rt", "    let mut r = [0u16; 1536];", "    let mut r = [0u16; 1536]; let mut w = [0u16; 1536];"),
    ("keys lib.rt", "    let end = at", "    hash::shake_from(p.rate, mu, 448, work);\n    let end = at"),
    ("keys lib.rt", "    let end = at", "    let end = at + 4032;\n    let end = at"),
    ("keys lib.rt", "&mut a[..n],", "&mut sums[..n],"),
    ("noise lib.rt", "    let secrets", "    hash::shake(p.rate, &sk[stored..public], &mut work[..4032]);\n    let secrets"),
    ("product halves.rt", "by_halves::<256, 512, Halves>", "by_halves::<1024, 2048, Halves>"),
    ("encryption lib.rt", "use kindi::Params;", "use kindi::Params;\nuse hash::shake;"),
    ("encryption lib.rt", "use kindi::Params;", "use kindi::Params;\nuse matrix::add_product;"),
    ("matrix lib.rt", "let next = s.squeeze(bytes);", "let next = begin(p, mu).skip(at).squeeze(bytes);"),
    ("matrix lib.rt", "let next = s.squeeze(bytes);", "hash::shake_from(p.rate, mu, at, bytes); let next = s;"),
    ("matrix lib.rt", "    for i in 0..p.l {", "    for i in 0..p.l {\n        s = begin(p, mu);"),
    ("matrix lib.rt", "        for j in 0..p.l {", "        for j in 0..p.l {\n            s = begin(p, mu);"),
    ("matrix lib.rt", "let taken = Sponge::new(p.rate).absorb(mu);", "let s = Sponge::new(p.rate); let t = s.absorb(mu);"),
]


def arrays_of(text):
    """The arrays of a text: its types, and values whose type is not among them by their length."""
    found = re.findall(r"\[[^\[\];]*;[^\];]*\]", text)
    types = {array for array in found if re.match(r"\[[a-z]\w+; \d+\]", array)}
    lengths = {array.partition(";")[2] for array in types}
    return types | {array for array in found if array.partition(";")[2] not in lengths}


def wrongs(texts):
    """What is otherwise than the lists have it."""
    kinds = {"arrays": {}, "rooms": {}, "sponges": {}, "streams": {}, "calls of add_product": {}}
    for place, text in texts.items():
        text = code(text)
        seen = {
            "arrays": sorted(arrays_of(text)) if not place.startswith("keccak ") else [],
            "rooms": re.findall(r"\[0u16; (\d+)\]", text),
            "sponges": re.findall(r"Sponge::(new)\b|\.(skip|squeeze)\(", text) if place != "hash sponge.rt" else [],
            "streams": [f"{name}({rate}, {given.strip()})" for name, rate, given
                        in re.findall(r"(?<!fn )\b(shake(?:_from)?)\(\s*([\w.]+),\s*([^,]+),", text)],
            "calls of add_product": [", ".join(argument.strip() for argument in call.split(",")[4:6])
                                     for call in re.findall(r"(?<!fn )\badd_product\((.*?)\);", text, re.S)],
        }
        seen["sponges"] = ["".join(pair) for pair in seen["sponges"]]
        for kind, found in seen.items():
            if found:
                kinds[kind][place] = found
        for line in re.findall(r"^use (?:hash::shake\w*|matrix::\w+);", text, re.M):
            yield f"{place}: {line}: it is called by its whole name"
    said = {"arrays": {place: sorted(rows) for place, rows in ARRAYS.items()}, "rooms": ROOMS, "sponges": SPONGES,
            "streams": STREAMS, "calls of add_product": USERS}
    for kind, found in kinds.items():
        for place in sorted(set(found) | set(said[kind])):
            has, wants = found.get(place, []), said[kind].get(place, [])
            if sorted(has) != sorted(wants):
                yield f"{place}: {kind}: {has}, and the list has {wants}"
    for place, rows in ARRAYS.items():
        for array, what in rows.items():
            length = array.partition("; ")[2][:-1]
            if what.startswith("A:") and max(SIZES[length] if length in SIZES else [int(length)]) > 512:
                yield f"{place}: {array}: longer than a polynomial of A"
    pairs = re.findall(r"by_halves::<(\w+), (\w+), ", code(texts["product halves.rt"]))
    if sorted(pairs) != sorted((str(h), str(n)) for h, n in zip(SIZES["H"], SIZES["N"])):
        yield f"product halves.rt: H and N: {pairs}, and the lists have {SIZES}"
    for place, name, line in ONCE:
        text = body(texts[place], name)
        head = line.partition("=")[0].strip() if line.startswith("let ") else line
        if text.count(line) != 1 or text.count(head + " =" if line.startswith("let ") else head) != 1:
            yield f"{place}: {name} has not once: {line}"
    walk = body(texts["matrix lib.rt"], "add_product")
    if texts["matrix lib.rt"].count("begin(") != 2 or "begin(" in walk.partition("for ")[2]:
        yield "matrix lib.rt: the stream is not begun once, before the loops"


if __name__ == "__main__":
    sys.exit(report("matrix.py", wrongs, EVASIONS,
                    f"A is fetched by one function, a polynomial at a time: {sum(map(len, ARRAYS.values()))} arrays and"
                    f" {sum(map(len, STREAMS.values()))} streams are listed, and {len(EVASIONS)} texts that hold more are reported"))
