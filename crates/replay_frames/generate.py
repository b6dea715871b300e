#!/usr/bin/env python3
"""Writes data/frames and stdout, which the program replay_frames reads and has to write: generate.py

data/frames: 4,096 bytes of base (an accepted frame, and zeros after it), then entries of 22 bytes, all numbers
little-endian: length u16 (so many bytes of the base make the frame), then twice offset u16, width u16 (2, 4, or 0 for
none) and value u32 (a field that is replaced), and then the number u16 and the place u16 that check has to answer.

The answers come from `check` below, written from document 01 and not from the Rattle."""
import os, random, struct

OVERFLOW = 65535
ROWS = {3: 178, 4: 614, 5: 674}


def u16(b, k):
    return struct.unpack_from("<H", b, k)[0]


def u32(b, k):
    return struct.unpack_from("<I", b, k)[0]


def f32(b, k):
    return struct.unpack_from("<f", b, k)[0]


def finite(b, k):
    return u32(b, k) & 0x7F800000 != 0x7F800000


def nan(b, k):
    return u32(b, k) & 0x7FFFFFFF > 0x7F800000


def fields(b, before):
    """The tests of one record, in order: (fails, number, place in the record)."""
    kind = u16(b, 4)
    if kind == 1:
        yield from ((u32(b, k) > 4096, 3, k) for k in (6, 10))
        yield u16(b, 16) > 64, 3, 16
        yield u16(b, 14) > 3, 4, 14
        yield from ((not finite(b, k), 5, k) for k in (18, 22))
        return
    if kind == 2:
        yield from ((not finite(b, k), 5, k) for k in range(6, 30, 4))
        return
    if kind == 3:
        yield u16(b, 12) > 4, 3, 12
    codes = {3: {8: 1, 10: 2}, 4: {8: 1, 10: 1, 12: 1}, 5: {8: 1, 10: 1, 12: 0}}[kind]
    yield from ((u16(b, k) > last, 4, k) for k, last in codes.items())
    yield from ((not finite(b, k), 5, k) for k in range(30, 174 if kind == 3 else len(b), 4))
    if kind == 3:
        yield from ((nan(b, k), 5, k) for k in (174, 178))
        yield f32(b, 174) > f32(b, 178), 6, 174
    else:
        yield from ((f32(b, k) < 0, 6, k) for k in list(range(374, 398, 4)) + ([506] if kind == 4 else []))
    yield u16(b, 6) < before, 7, 6


def check(s):
    """Document 01's table: (number, place)."""
    off, colour, points, rows, named = 0, 0, 0, 0, []
    todo = [{1: 22}]
    while todo:
        due = todo.pop(0)
        if len(s) - off < 6:
            return 1, off
        n, kind = u32(s, off), u16(s, off + 4)
        if due.get(kind) != n:
            return 2, off
        if len(s) - off < 4 + n:
            return 1, off
        b = s[off : off + 4 + n]
        for fails, number, place in fields(b, colour):
            if fails:
                return number, off + place
        if kind == 1:
            points, rows = u32(b, 6), u32(b, 10)
            todo = [{2: 26}] * points + [ROWS] * rows
        elif kind >= 3:
            colour = u16(b, 6)
            count = u16(b, 12) if kind == 3 else 4
            named.append((off, colour, {u32(b, 14 + 4 * i) for i in range(count)}))
        off += 4 + n
    if off < len(s):
        return 8, off
    for i, (off, colour, ids) in enumerate(named):
        if colour != OVERFLOW:
            for _, c, other in named[:i]:
                if c == colour and any(x < points for x in ids & other):
                    return 9, off
    return 0, 0


def head(n, r):
    return struct.pack("<IHIIHHff", 22, 1, n, r, 1, 2, 0.5, 0.25)


def point(x):
    return struct.pack("<IH6f", 26, 2, x, 1.0, 2.0, 0.0, -0.0, 1.0)


def scalar(colour, ids, count):
    floats = [1.0] * 36 + [float("-inf"), float("inf")]
    return struct.pack("<IHHHHH4I38f", 178, 3, colour, 1, 0, count, *ids, *floats)


def elastic(kind, colour, ids, fourth):
    n = (ROWS[kind] - 26) // 4
    return struct.pack(f"<IHHHHH4I{n}f", ROWS[kind], kind, colour, 0, 1, fourth, *ids, *[0.5] * n)


PARTS = [head(9, 5)] + [point(float(i)) for i in range(9)] + [
    scalar(0, (0, 8, 0, 8), 2),
    elastic(4, 1, (0, 1, 2, 3), 1),
    elastic(5, 1, (4, 5, 6, 7), 0),
    scalar(OVERFLOW, (0, 1, 2, 3), 4),
    scalar(OVERFLOW, (0, 1, 0xFFFFFFFF, 9), 4),
]
BASE = b"".join(PARTS)
STARTS = [sum(map(len, PARTS[:i])) for i in range(len(PARTS))]
FLOATS = (0x7F800000, 0xFF800000, 0x7FC00000, 0xFFFFFFFF, 0x7F800001, 0x7F7FFFFF, 0x80000000, 0xBF800000, 0x80000001, 0)
NUMBERS = (0, 1, 2, 3, 4, 5, 64, 65, 4096, 4097, 65534, 65535)


def layout(b):
    """Each field of a record: (offset, width)."""
    kind = u16(b, 4)
    yield 0, 4
    yield 4, 2
    if kind == 1:
        yield from ((6, 4), (10, 4), (14, 2), (16, 2), (18, 4), (22, 4))
    elif kind == 2:
        yield from ((k, 4) for k in range(6, 30, 4))
    else:
        yield from ((k, 2) for k in (6, 8, 10, 12))
        yield from ((k, 4) for k in range(14, len(b), 4))


def single():
    """Each field of the head, a point and a row of each kind, at and around its limits."""
    for i in (0, 1, 10, 11, 12, 13):
        for k, width in layout(PARTS[i]):
            first = 18 if i == 0 else 6 if i == 1 else 30
            if width == 2 or k < first:
                values = NUMBERS + (22, 26, 178, 614, 674)
            elif i == 10 or k in (374, 394, 506):
                values = FLOATS
            else:
                values = (0x7F800000,)
            for v in values:
                yield len(BASE), (STARTS[i] + k, width, v), (0, 0, 0)


def lengths():
    ends = STARTS + [len(BASE)]
    for e in ends:
        for n in range(max(0, e - 7), e + 8):
            yield n, (0, 0, 0), (0, 0, 0)
    # a frame that ends where a record that is not due starts
    for e in ends[1:-1]:
        for n in (e + 5, e + 6):
            yield n, (e + 4, 2, 77), (0, 0, 0)


def bounds():
    """Each lower bound with each upper one."""
    for lower in FLOATS:
        for upper in FLOATS:
            yield len(BASE), (STARTS[10] + 174, 4, lower), (STARTS[10] + 178, 4, upper)


def clashes():
    """Two ids made one, in one colour, across the overflow, and out of range."""
    for a, b, colour in ((11, 12, 1), (10, 11, 1), (13, 14, OVERFLOW), (13, 14, 65534), (12, 13, 1)):
        for k in (14, 18, 22, 26):
            for x in (0, 8, 9, 0xFFFFFFFF):
                yield len(BASE), (STARTS[b] + k, 4, x), (STARTS[a] + 26, 4, x)
            yield len(BASE), (STARTS[a] + 6, 2, colour), (STARTS[b] + 6, 2, colour)
            yield len(BASE) + 3, (STARTS[a] + 6, 2, colour), (STARTS[b] + 6, 2, colour)


def pairs(rng, count):
    """Two damaged fields: the earlier test goes first."""
    for _ in range(count):
        out = []
        for _ in range(2):
            i = rng.choice((0, 1, 10, 11, 12, 13))
            k, width = rng.choice(list(layout(PARTS[i])))
            v = rng.choice(FLOATS if width == 4 and rng.random() < 0.7 else NUMBERS)
            out.append((STARTS[i] + k, width, v))
        yield (rng.choice((len(BASE), len(BASE), len(BASE) + 1)), *out)


def main():
    here = os.path.dirname(os.path.abspath(__file__))
    base = BASE.ljust(4096, b"\0")
    entries, seen = [], {}
    for length, a, b in [*single(), *lengths(), *bounds(), *clashes(), *pairs(random.Random(1), 400)]:
        frame = bytearray(base)
        for at, width, value in (a, b):
            if width:
                struct.pack_into("<H" if width == 2 else "<I", frame, at, value % (1 << 8 * width))
        number, place = check(bytes(frame[:length]))
        seen[number] = seen.get(number, 0) + 1
        entries.append(struct.pack("<HHHIHHIHH", length, *a, *b, number, place))
    os.makedirs(os.path.join(here, "data"), exist_ok=True)
    with open(os.path.join(here, "data", "frames"), "wb") as f:
        f.write(base + b"".join(entries))
    with open(os.path.join(here, "stdout"), "w") as f:
        f.write(f"{len(entries)} frames, 0 answered otherwise\n")
    print(len(entries), "entries; of each number:", dict(sorted(seen.items())))


if __name__ == "__main__":
    main()
