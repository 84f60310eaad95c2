#!/usr/bin/env python3
"""What the source says of the reader of bit strings (02, No. 3): it goes by its cursor alone, which is carried forward. It
divides nothing and multiplies no count into a place, and what it calls does not either. The cursor's methods stand here in
full, since a place can be found another way in each of them. Texts that break this are tried too, and have to be reported.

usage: reader.py    say every thing that is otherwise, and exit 1 where there is one
"""

import re
import sys

from source import body, code, report

READER, LIBRARY, BITS = "packing reader.rt", "packing lib.rt", "bits lib.rt"

# The methods: one shift and one mask, in `after`, and products of a width alone, of four coefficients.
METHODS = """
pub fn start() -> Self { Self { byte: 0, bit: 0 } }
fn after(self, bits: u32) -> Self {
    let sum = self.bit + bits;
    Self { byte: self.byte + (sum >> 3) as usize, bit: sum & 7, }
}
pub fn one(self, w: u32, src: &[u8]) -> Coefficient {
    let word = low_word(&src[self.byte..]);
    Coefficient { value: low_bits(word >> self.bit, w), next: self.after(w), }
}
fn four(self, w: u32, src: &[u8], dst: &mut [u16]) -> Self {
    put_four(dst, word(&src[self.byte..]) >> self.bit, w);
    self.after(4 * w)
}
fn eight(self, w: u32, src: &[u8], dst: &mut [u16]) -> Self {
    let second = self.four(w, src, &mut dst[..4]);
    second.four(w, src, &mut dst[4..]);
    Self { byte: self.byte + w as usize, ..self }
}
fn end(self, w: u32, len: usize) -> usize {
    let first = Self { byte: 0, ..self };
    let second = first.after(4 * w);
    if 64 < first.bit + 4 * w || 64 < second.bit + 4 * w { return 0; }
    len.saturating_sub(second.byte + 7)
}
fn each(self, w: u32, src: &[u8], dst: &mut [u16]) -> Self {
    let mut c = self;
    for value in dst.iter_mut() {
        let one = c.one(w, src);
        *value = one.value;
        c = one.next;
    }
    c
}
pub fn read(self, w: u32, src: &[u8], dst: &mut [u16]) -> Self {
    let end = self.end(w, src.len());
    let mut c = self;
    let mut i = 0;
    while 8 <= dst.len() - i && c.byte < end {
        c = c.eight(w, src, &mut dst[i..i + 8]);
        i += 8;
    }
    c.each(w, src, &mut dst[i..])
}
"""

# The functions that are given a string take its first bytes, and no others are given one, a cursor or a place.
STRINGS = """
fn byte_or_zero(s: &[u8], i: usize) -> u8 { s.get(i).copied().unwrap_or(0) }
fn low_word(s: &[u8]) -> u32 {
    if 4 <= s.len() { return u32::from_le_bytes([s[0], s[1], s[2], s[3]]); }
    u32::from_le_bytes([ byte_or_zero(s, 0), byte_or_zero(s, 1), byte_or_zero(s, 2), byte_or_zero(s, 3), ])
}
fn word(s: &[u8]) -> u64 {
    u64::from_le_bytes([s[0], s[1], s[2], s[3], s[4], s[5], s[6], s[7]])
}
"""
GIVEN = {
    "byte_or_zero": "s: &[u8], i: usize", "low_word": "s: &[u8]", "word": "s: &[u8]",
    "pairs": "x: u64, w: u32", "singles": "x: u64, w: u32", "spread": "x: u64, w: u32", "low_half": "x: u64",
    "put_four": "dst: &mut [u16], x: u64, w: u32",
}

# What these call of std: lengths, elements, and numbers of bytes.
CALLED = {"len", "get", "copied", "unwrap_or", "from_le_bytes"}

# What is used of other crates, with its body, and where the library unpacks, how often.
USES = ["use bits::low_bits;"]
USERS = {"cipher_terms lib.rt": 3, "decryption lib.rt": 1, "decryption recover.rt": 2, "matrix lib.rt": 1, "noise factors.rt": 1,
         "vectors lib.rt": 1}
LOW_BITS = "pub fn low_bits(c: u32, w: u32) -> u16 { (c & ((1 << w) - 1)) as u16 }"
UNPACK = "pub fn unpack(w: u32, src: &[u8], dst: &mut [u16]) { Cursor::start().read(w, src, dst); }"

# Changes of the source that find a place another way, some of them with the same answers.
EVASIONS = [
    (READER, "(sum >> 3) as usize", "(sum / 8) as usize"),
    (READER, "bit: sum & 7,", "bit: sum % 8,"),
    (READER, "let sum = self.bit + bits;", "let sum = self.bit + bits; let whole = sum.div_euclid(8);"),
    (READER, "let sum = self.bit + bits;", "let sum = ((self.byte as u32) << 3) + self.bit + bits;"),
    (READER, "let sum = self.bit + bits;", "let byte = self.byte; let bit = self.bit; return Self { byte, bit };"),
    (READER, "low_word(&src[self.byte..])", "low_word(&src[((self.byte << 3) + self.bit as usize) >> 3..])"),
    (READER, "low_word(&src[self.byte..])", "low_word(&src[w as usize * self.byte..])"),
    (READER, "(dst, word(&src[self.byte..])", "(dst, word(&src[self.byte + 1..])"),
    (READER, "(dst, word(&src[self.byte..])", "(dst, word(&(&src[self.byte..])[w as usize >> 3..])"),
    (READER, "byte: self.byte + w as usize,", "byte: self.byte << 1,"),
    (READER, "let one = c.one(w, src);", "let one = self.after(k).one(w, src); k += w;"),
    (READER, "let one = c.one(w, src);", "let c: Self = self.after(k); let one = c.one(w, src);"),
    (READER, "let one = c.one(w, src);", "let text = src; let one = c.one(w, &text[i >> 3..]);"),
    (READER, "c = c.eight(", "c = self.after(i as u32).eight("),
    (READER, "let end = self.end(w, src.len());", "let end = self.end(w, src.len()) >> 3;"),
    (READER, "let end = self.end(w, src.len());", "let end = bits::quotient(src.len(), w);"),
    (READER, "c.each(w, src, &mut dst[i..])", "Self { byte: i, bit: 0 }.each(w, src, &mut dst[i..])"),
    (READER, "c.each(w, src, &mut dst[i..])", "c.byte = i; c.each(w, src, &mut dst[i..])"),
    (READER, "next: self.after(w),", "next: self.after(w).after(w).after(0 - w),"),
    (READER, "c = one.next;", "c = self.after(i);"),
    (READER, "use bits::low_bits;", "use bits::low_bits;\nuse bits::quotient;"),
    (READER, "ghost use Rattle.packing.specs.Apart.{two_apart};",
     "ghost use Rattle.packing.specs.Apart.{two_apart}; use bits::quotient;"),
    (READER, "#[derive(Clone, Copy)]", "#[derive(Clone, Copy, Place)]"),
    (READER, "fn low_word(s: &[u8])", "fn low_word(s: &[u8], n: usize)"),
    (READER, "fn low_word(s: &[u8])", "pub(crate) fn low_word(s: &[u8])"),
    (READER, "s.get(i)", "s.chunks(i).next()"),
    (READER, "byte_or_zero(s, 0)", "byte_or_zero(s, (s.len() >> 3) & 0)"),
    (READER, "len.saturating_sub(second.byte + 7)", "len.saturating_sub((len >> 3) + second.byte + 7)"),
    (READER, "fn low_half(", "fn past(c: Cursor) -> usize { c.byte << 3 }\nfn low_half("),
    (READER, "impl Cursor {", "impl Coefficient {\n    fn place(self) -> u16 { self.value << 1 }\n}\n\nimpl Cursor {"),
    (LIBRARY, "    Cursor::start().read(w, src, dst);", "    unpack_eights(w, src, dst);"),
    (LIBRARY, "    Cursor::start().read(w, src, dst);", "    Cursor { byte: w as usize / 8, bit: 0 }.read(w, src, dst);"),
    (LIBRARY, "    let mut rest = src;", "    let at = reader::word(&dst[k / 8..]);\n    let mut rest = src;"),
    (READER, "    fn each(self,", "    fn each(self, w: u32) { crate::unpack_each(w) }\n\n    fn each_of(self,"),
    (LIBRARY, "fn put(dst", "pub fn unpack_at(w: u32) -> u32 { w / 8 }\n\nfn put(dst"),
    (BITS, "(c & ((1 << w) - 1)) as u16", "(c % (1 << w)) as u16"),
    (BITS, "(c & ((1 << w) - 1)) as u16", "rest(c, 1 << w) as u16"),
    ("vectors lib.rt", "use packing::unpack;", "use packing::unpack_at;"),
    ("vectors lib.rt", "use packing::unpack;", "fn unpack(w: u32, src: &[u8], dst: &mut [u16]) { read(w / 8, src, dst) }"),
    ("noise factors.rt", "    packing::unpack(w,", "    own_reader(w,"),
    ("vectors lib.rt", "use packing::unpack;", "use packing::unpack;\nuse packing::reader::Cursor;"),
]


def flat(text):
    """A text in one line."""
    return " ".join(text.split())


def wrongs(texts):
    """What is otherwise than the lists have it."""
    reader = code(texts[READER])
    for operator in "/%":
        if operator in reader:
            yield f"{READER}: it has {operator}"
    before, _, methods = reader.partition("impl Cursor {")
    if flat(methods) != f"{flat(METHODS)} }}":
        yield f"{READER}: the methods are not those of the list"
    given = {name: flat(words) for name, words in re.findall(r"\bfn (\w+)\(([^)]*)\)", before)}
    if given != GIVEN:
        yield f"{READER}: functions that are given {given}"
    if "impl" in before or re.search(r"\bCursor\b", re.sub(r"\bpub next: Cursor,|\bpub struct Cursor\b", "", before)):
        yield f"{READER}: a cursor outside its methods"
    called = set(re.findall(r"(?<!fn )\b(\w+)\(", before)) - GIVEN.keys()
    if called != CALLED:
        yield f"{READER}: calls of {called}"
    for wanted in re.findall(r"(?:\A|(?<=\n))fn .*?(?=\nfn |\n*\Z)", STRINGS.strip(), re.S):
        name = wanted.partition("(")[0][3:]
        if flat(body(before, name)) != flat(wanted):
            yield f"{READER}: {name} is not that of the list"
    if re.findall(r"(?<!ghost )\buse [^;]*;", reader) != USES:
        yield f"{READER}: uses other than {USES}"
    for place, name, wanted in ((LIBRARY, "unpack", UNPACK), (BITS, "low_bits", LOW_BITS)):
        if flat(body(code(texts[place]), name)) != wanted:
            yield f"{place}: {name} is not {wanted}"
    if re.search(r"\bpub fn|\bpub\(", before):
        yield f"{READER}: a function outside the methods that others may call"
    for name in sorted(GIVEN.keys() & set(re.findall(r"\b(\w+)\(", code(texts[LIBRARY])))):
        yield f"{LIBRARY}: a call of {name}"
    if re.findall(r"\bpub fn (\w+)", texts[LIBRARY]) != ["unpack", "pack"]:
        yield f"{LIBRARY}: other functions than unpack and pack"
    users = {}
    for place, text in texts.items():
        if place.startswith("packing "):
            continue
        if not set(re.findall(r"\bpacking::([\w:]+)", text)) <= {"unpack", "pack"} or re.search(r"\bfn \w*unpack", text):
            yield f"{place}: it reads other than by unpack"
        calls = re.findall(r"\bunpack\(", code(text))
        if calls:
            users[place] = len(calls)
    if users != USERS:
        yield f"the library unpacks at {users}"


if __name__ == "__main__":
    sys.exit(report("reader.py", wrongs, EVASIONS,
                    f"the reader goes by its cursor and divides nothing; {len(EVASIONS)} texts that find a place another way are"
                    " reported"))
