"""What the makers of stored cases share: contents without a random source, and the stored files."""

import sys
from pathlib import Path

ROOT = Path(__file__).resolve().parents[2]
CRATES = ROOT / "crates"
KNOWN_ANSWERS = ROOT / "tests" / "vectors" / "known_answers"


def content(length, seed):
    """Bytes with no short period: the high byte of a linear congruential sequence."""
    state = (seed * 2654435761 + length) & 0xFFFFFFFF
    out = bytearray()
    for _ in range(length):
        state = (state * 1664525 + 1013904223) & 0xFFFFFFFF
        out.append(state >> 24)
    return bytes(out)


def difference(path, made):
    """What is wrong with a stored file, or None."""
    name = path.relative_to(ROOT).as_posix()
    if not path.is_file():
        return f"{name} is missing"
    stored = path.read_bytes()
    if stored == made:
        return None
    shorter = min(len(stored), len(made))
    at = next((i for i in range(shorter) if stored[i] != made[i]), shorter)
    # stdin alone is no text.
    line = f", line {made[:at].count(10) + 1}" if path.name != "stdin" else ""
    return f"{name} has {len(stored)} bytes and should have {len(made)}; they first differ at byte {at}{line}"


def store(folder, make, usage):
    """Writes the files of a folder, the bytes by name that make returns, or with --check compares; the
    files."""
    if sys.argv[1:] not in ([], ["--check"]):
        sys.exit(usage)
    files = make()
    if sys.argv[1:]:
        wrong = [said for name, made in files.items() if (said := difference(folder / name, made))]
        if wrong:
            sys.exit("\n".join(f"{Path(sys.argv[0]).name}: {said}" for said in wrong) + "\nrun make vectors")
    else:
        folder.mkdir(parents=True, exist_ok=True)
        for name, made in files.items():
            (folder / name).write_bytes(made)
    return files


def main(crate, make, usage):
    """Stores a crate's files stdin and stdout, the bytes that make returns."""
    files = store(CRATES / crate, lambda: dict(zip(("stdin", "stdout"), make())), usage)
    count = files["stdout"].count(b"\n")
    print(f"{count} cases, {len(files['stdin'])} bytes of stdin, {len(files['stdout'])} bytes of stdout")
