"""Makes crates/house/stdin and crates/house/stdout, the fixed answers: compare/run fixed. With --check it only says whether they are still what it would make.

The first part stays in document 01's domain, and its answers are the unchanged Rust engine's (the oracle's). Some of its lines are written out below, some come
from the profiles of the random comparison (drivers/src/profiles.rs). The second part begins with a restore of no rows and holds what the Rust cannot be asked:
full names, full reservations, names of any bytes; and the lines of the profiles on which the two differ by the exact sum of a row. Its answers are those of
model.py, which agrees with the oracle on every line of the first part."""

import pathlib
import random
import struct
import subprocess
import sys

from model import M, TAG, Ledger, Reader, amount, named, snapshot_bytes, word

HERE = pathlib.Path(__file__).resolve().parent
HOUSE = HERE.parent / "crates" / "house"
RESET = b"\x08" + snapshot_bytes(TAG + 1, 0, [])


def call(code, name, z):
    return bytes([code]) + named(name) + amount(z)


def ensure(name, z):
    return call(1, name, z)


def reserve(name, z):
    return call(4, name, z)


def commit(booking, z):
    return b"\x05" + word(booking) + amount(z)


def release(booking):
    return b"\x06" + word(booking)


def marked():
    """W1 to W12; each starts fresh."""
    q, hundred = b"Q1", ensure(b"Q1", 100)
    cases = [
        [reserve(q, 0)],
        [reserve(q, 5)],
        [hundred, reserve(q, 101)],
        [hundred, reserve(q, 101), reserve(q, 100)],
        [hundred, call(3, q, 50), reserve(q, 50), reserve(q, 1)],
        [hundred, reserve(q, 10), reserve(q, M)],
        [hundred, reserve(q, 10), commit(1, 0)],
        [hundred, reserve(q, 10), commit(1, 101), commit(1, 100)],
        [hundred, reserve(q, 10), commit(1, 60), reserve(q, 10), commit(2, M)],
        [ensure(q, M - 5), call(2, q, 6), call(2, q, 5)],
        [b"\x08" + snapshot_bytes(v, 0, []) for v in (0, TAG, TAG + 7)],
        [b"\x08" + snapshot_bytes(TAG + M - 1, 0, [(q, 100, 100, 0, 0)]), reserve(q, 1), reserve(q, 1), b"\x07", b"\x0b", b"\x0d"],
    ]
    return [f for case in cases for f in [RESET, *case]]


def judged():
    """Snapshots good and bad of every kind, to every operation that takes one."""
    q, a, b, c = b"Q1", b"A", b"B", b"C"
    good = TAG + 5
    snapshots = [
        (5, 0, [(q, 100, 60, 0, 40)]),
        (good, 0, [(c, 7, 5, 0, 2), (a, 4, 4, 0, 0), (b, 6, 0, 0, 6)]),
        (good, 3, [(q, -1, -1, 0, 0)]),
        (good, 0, [(a, 1, 1, 0, 0), (b, 1, 1, 0, 0), (a, 2, 2, 0, 0)]),
        (good, 0, [(q, 1, 0, 1, 0)]),
        (good, 0, [(q, -1, -2, 0, -3)]),
        (good, 0, [(q, -1, 0, 0, -3)]),
        (good, 0, [(q, 0, 0, 0, -3)]),
        (good, 0, [(a, 1, 1, 0, 0), (q, 10, 4, 0, 7)]),
        (good, 0, [(q, 5, M, 0, M)]),
        (good, 0, [(q, -M - 1, M, 0, 0)]),
        (good, 0, [(q, 0, -5, 0, 5)]),
        (good, 2, [(a, M, M, 0, 0), (b, -M, -M, 0, 0), (c, M, 0, 0, M)]),
        (good, 0, [(a, M, 0, 0, M), (b, 1, 0, 0, 1)]),
        (0, 0, []),
        (TAG, 0, []),
        (TAG + M, 0, [(b"", 3, 1, 0, 2)]),
        (good, 0, [(b"x" * 25, 1, 1, 0, 0)]),
        (good, 0, [(b"n" * 24, 9, 9, 0, 0)]),
    ]
    frames = []
    for version, active, rows in snapshots:
        s = snapshot_bytes(version, active, rows)
        frames += [b"\x0e" + s, b"\x0c" + amount(-7) + s]
        frames += [b"\x0a" + word(fence) + s for fence in (0, 12, M, M + 1)]
        frames += [b"\x08" + s, b"\x0d", b"\x0b", b"\x09" + s, b"\x07", b"\x0b"]
    return frames


def damaged():
    """Lines that are no frames, and frames cut, lengthened or changed. As characters."""
    whole = [f.hex() for f in (ensure(b"Q1", 5), commit(1, 5), release(1), b"\x07", RESET, b"\x0a" + word(9) + RESET[1:], b"\x0c" + amount(1) + RESET[1:])]
    lines = ["", "0", "00", "0f", "ff", "zz", "0x07", " 07", "07 ", "0B", "0b0", "04 2", "\r"]
    for text in whole:
        lines += [text[:-1], text[:-2], text + "0", text + "00", text.upper() if any(c in "abcdef" for c in text) else text + "G"]
    too_many = b"\x0e" + word(TAG + 1) + word(0) + struct.pack(">H", 257)
    long_name = [bytes([code]) + named(b"n" * size) + amount(1) for code in (1, 2, 3, 4) for size in (25, 255)]
    lines += [too_many.hex(), *(f.hex() for f in long_name)]
    lines += ["07" * 14619, "07" * 14619 + "0", "07" * 14620, "17" * 40000]
    return lines


NAMES = [b"", b"A", b"AB", b"ABC", b"Q1", b"Q2", b"\0", b"A\0", "é".encode(), "日本航空".encode(), b"LH", b"TAP", b"KLM", b"n" * 24]
ENDS = [0, 1, 2, -1, 99, 100, 101, 1000, M, M - 1, M // 2, -M, -M - 1]


def desk(rng, count):
    """A night: mostly bookings, deliveries and bags found on the belt."""
    frames, granted = [ensure(n, rng.randrange(1, 5000)) for n in NAMES[:8]], 0
    for _ in range(count):
        kind = rng.randrange(20)
        name = rng.choice(NAMES)
        if kind < 9:
            frames.append(reserve(name, rng.randrange(-1, 300)))
            granted += 1
        elif kind < 13:
            frames.append(commit(rng.randrange(0, granted + 3), rng.randrange(-1, 400)))
        elif kind < 16:
            frames.append(release(rng.randrange(0, granted + 3)))
        elif kind < 18:
            frames.append(call(rng.choice((1, 2, 3)), name, rng.randrange(-1, 900)))
        else:
            frames.append(rng.choice((b"\x07", b"\x0b", b"\x0d")))
            granted += 1
    return frames


def at_the_ends(rng, count):
    """Amounts and ids at their ends."""
    frames = []
    for _ in range(count):
        name, z = rng.choice(NAMES[:6]), rng.choice(ENDS)
        code = rng.choice((1, 2, 3, 4, 4, 4, 5, 6, 7, 8, 11, 13))
        if code <= 4:
            frames.append(call(code, name, z))
        elif code == 5:
            frames.append(commit(rng.choice((0, 1, 2, 3, M - 2, M - 1, M, 2**64 - 1)), z))
        elif code == 6:
            frames.append(release(rng.choice((0, 1, 2, 3, M - 2, M - 1, M))))
        elif code == 8:
            rows = [(n, v, v, 0, 0) for n, v in ((b"A", rng.choice((5, M))), (b"Q1", rng.choice((7, M))))]
            frames.append(bytes([rng.choice((8, 9))]) + snapshot_bytes(TAG + rng.choice((1, 3, M - 3, M - 1, M)), 0, rows))
        else:
            frames.append(bytes([code]))
    return frames


def inside():
    rng = random.Random(5200)
    frames = [ensure(b"Q1", 1000), reserve(b"Q1", 300), commit(1, 250), b"\x07", *marked(), RESET, *judged(), RESET]
    lines = [f.hex() for f in frames] + damaged()
    for frames in (desk(rng, 900), [RESET], at_the_ends(rng, 700), [RESET], desk(rng, 500), [b"\x07"]):
        lines += [f.hex() for f in frames]
    return lines


def outside():
    exact = snapshot_bytes(TAG + 5, 0, [(b"Q1", M, M, 1, -1)])
    frames = [RESET, b"\x0e" + exact, b"\x0c" + amount(0) + exact, b"\x08" + exact]
    names = [bytes([i]) for i in range(256)]
    frames += [ensure(n, 2000) for n in reversed(names)]
    frames += [ensure(b"one more", 1), call(3, b"one more", 1), ensure(names[7], 9), call(3, names[7], 50), b"\x07"]
    frames += [reserve(names[(i * 37) % 256], 1) for i in range(1024)]
    frames += [reserve(names[0], 1), reserve(names[0], 5000), release(1), reserve(names[0], 1), b"\x0b", b"\x07"]
    rows = [(n, 3, 1, 0, 2) for n in names]
    frames += [b"\x08" + snapshot_bytes(TAG + 90, 0, rows), b"\x0d", ensure(b"\xff\xfe\x80", 1)]
    frames += [b"\x08" + snapshot_bytes(TAG + 99, 0, rows[:255]), call(3, b"\xff\xfe\x80", 1), ensure(b"\xc3\x28", 1), call(3, b"\xff\xfe\x80", 0), ensure(b"\xc3\x28", 1), b"\x07"]
    return [f.hex() for f in frames]


def by_chance():
    """Lines of each profile of the random comparison."""
    beside = [HERE / "target" / "release" / "beside", "--lines", "5200", "1500"]
    return subprocess.run(beside, capture_output=True, check=True).stdout.decode().splitlines()


def is_exact_sum(line):
    """Whether remaining and reserved of some row leave 64 bits by themselves, in a line that changes nothing (docs/DIFFERENCES.md)."""
    data = bytes.fromhex(line)
    if data[0] not in (12, 14):
        return False
    rows = Reader(data[9 if data[0] == 12 else 1 :]).snapshot()[2]
    return any(not -TAG <= remaining + reserved <= M for _, _, remaining, reserved, _ in rows)


def answered():
    """The lines of both parts, how many are of the first, and their answers."""
    first = [*inside(), RESET.hex(), *by_chance()]
    oracle = HERE / "target" / "release" / "oracle"
    rust = subprocess.run([oracle], input=("\n".join(first) + "\n").encode(), capture_output=True, check=True).stdout.decode().splitlines()
    model = Ledger()
    pairs = [(line, theirs, model.line(line.encode())) for line, theirs in zip(first, rust, strict=True)]
    differing = [line for line, theirs, ours in pairs if theirs != ours]
    assert all(map(is_exact_sum, differing)), [line[:80] for line in differing if not is_exact_sum(line)][:5]
    same = [(line, theirs) for line, theirs, ours in pairs if theirs == ours]
    second = outside() + differing
    return [line for line, _ in same] + second, len(same), [theirs for _, theirs in same] + [model.line(line.encode()) for line in second]


def main():
    lines, of_the_rust, answers = answered()
    made = {"stdin": "\n".join(lines), "stdout": "\n".join(answers) + "\n"}
    if sys.argv[1:] == ["--check"]:
        differing = [name for name, text in made.items() if (HOUSE / name).read_bytes() != text.encode()]
        if differing:
            sys.exit(f"house_lines.py: crates/house/{' and '.join(differing)} would be made otherwise now")
    else:
        for name, text in made.items():
            (HOUSE / name).write_bytes(text.encode())
    numbers = sorted({int(a[:2], 16) for a in answers})
    print(f"fixed answers: {of_the_rust} of the Rust, {len(lines) - of_the_rust} of the model; answer numbers {numbers}")


if __name__ == "__main__":
    main()
