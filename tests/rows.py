#!/usr/bin/env python3
"""Writes the office's script: the rows of calls A to H, and lines that are none.

    rows.py            all of it
    rows.py A B        some of them; W a long row, R blocks refused at each split, L lines that are none
"""
import random
import sys


def a():
    yield "row 1"
    yield "insert 1 0 7"
    yield "insert 1 0 8"
    yield "insert 1 2 9"


def row_a():
    yield from a()
    for i in range(4):
        yield "at 1 %d" % i
    yield "free 1"


def row_b():
    yield from a()
    yield from ["split 1 1 2", "length 1", "at 2 0", "join 2 1", "at 2 2", "free 1", "free 2"]


def c():
    yield "table 3"
    yield "put 3 5 50"
    yield "put 3 2 20"
    yield "put 3 5 51"


def row_c():
    yield from c()
    for i in range(3):
        yield "nth 3 %d" % i
    yield from ["least 3 3", "count 3 5", "drop 3 2", "get 3 2", "free 3"]


def row_d():
    yield from c()
    yield from ["cut 3 5 4", "merge 4 3", "merge 3 4", "length 3", "free 3", "free 4"]


def row_e():
    yield from ["row 256", "row 1", "row 1", "table 3", "at 3 0", "join 1 1", "split 1 5 1", "free 1", "free 3", "held"]


def row_f():
    """10,000 words at the front; each second one goes, from the middle on; then all."""
    n, length, done = 6, 10000, 0
    yield "row %d" % n

    def also():
        nonlocal done
        done += 1
        if done % 100 == 0:
            yield "held"
    for x in range(length):
        yield "insert %d 0 %d" % (n, x)
        yield from also()
    for start, stop in ((length // 2, length), (0, length // 2)):
        for j in range((stop - start) // 2):
            yield "delete %d %d" % (n, start + j)
            yield from also()
    for _ in range(length // 2):
        yield "delete %d 0" % n
        yield from also()
    yield from ["held", "length %d" % n, "free %d" % n, "held"]


def row_g():
    """A row of 5,000, split and joined again while the k-th block is refused."""
    yield "row 7"
    for x in range(5000):
        yield "insert 7 %d %d" % (x, 3 * x)
    for k in range(1, 66):
        yield from ["refuse %d" % k, "split 7 2500 8", "join 7 8", "length 7"]
    for i in (0, 2499, 2500, 4999):
        yield "at 7 %d" % i
    yield from ["free 7", "free 8", "held"]


def row_h():
    """Ninety rows of 100 joined into one, and split again into ninety."""
    rows, words, first = 90, 100, 10
    for r in range(rows):
        yield "row %d" % (first + r)
        for i in range(words):
            yield "insert %d %d %d" % (first + r, i, 1000 * r + i)
    for r in range(1, rows):
        yield "join %d %d" % (first, first + r)
    yield "length %d" % first
    yield "held"
    for r in range(rows - 1, 0, -1):
        yield "split %d %d %d" % (first, words * r, first + r)
    for r in range(rows):
        yield "length %d" % (first + r)
        for i in (0, 1, 50, 98, 99):
            yield "at %d %d" % (first + r, i)
    for r in range(rows):
        yield "free %d" % (first + r)
    yield "held"


def row_long():
    """A row of 20,000 words, built at the front, at the end and at random places, and read back whole."""
    n, third, r = 20, 7000, random.Random(20)
    yield "row %d" % n
    for x in range(third):
        yield "insert %d 0 %d" % (n, x)
    for x in range(third, 2 * third):
        yield "insert %d %d %d" % (n, x, x)
    for x in range(2 * third, 20000):
        yield "insert %d %d %d" % (n, r.randrange(x + 1), x)
    yield "held"
    yield "insert %d 20001 1" % n
    for i in range(20000):
        yield "at %d %d" % (n, i)
    yield "at %d 20000" % n
    for i in range(0, 20000, 997):
        yield "set %d %d %d" % (n, i, i + 5)
        yield "at %d %d" % (n, i)
    yield from ["set %d 20000 1" % n, "length %d" % n, "free %d" % n, "length %d" % n, "held"]


def row_refused():
    """The k-th block is refused at each insertion, so at each split of a leaf, a node and the root; then little room."""
    n, r = 21, random.Random(21)
    yield "row %d" % n
    for x in range(2600):
        for k in (1, 2, 3):
            yield "refuse %d" % k
            yield "insert %d %d %d" % (n, 0 if x < 1300 else r.randrange(x), 10 * x + k)
        if x % 20 == 0:
            yield from ["held", "length %d" % n, "at %d %d" % (n, r.randrange(x + 1))]
    for i in range(0, 2600, 7):
        yield "at %d %d" % (n, i)
    yield from ["held", "free %d" % n, "held", "row %d" % n]
    for room in (1, 2, 3, 4, 6):
        yield "room %d" % room
        for x in range(70):
            yield "insert %d %d %d" % (n, x % (1 + x), x)
        yield from ["held", "length %d" % n, "at %d 61" % n]
    yield from ["room 0", "insert %d 0 1" % n, "length %d" % n, "free %d" % n, "held"]


def lines():
    """Lines that are none, and lines that only just are."""
    yield from [
        "", " ", "row", "row ", " row 1", "row  1", "row 1 ", "row 1 2", "Row 1", "rows 1", "row\t1", "row 1\r", "row +1", "row -1", "row 1.0", "row 0x1",
        "row one", "held 1", "refuse", "refuse 1 2", "room", "room -1", "insert 1 0", "insert 1 0 1 1", "at 1 18446744073709551616",
        "at 1 99999999999999999999999999", "row \u00e9", "row 1\0", "hello",
        # these are
        "row 001", "length 1", "insert 1 0 18446744073709551615", "at 1 0", "at 1 18446744073709551615", "set 1 0 00", "at 1 0", "free 1",
        # names that there aren't
        "row 256", "row 4294967295", "row 4294967296", "row 18446744073709551615", "row 18446744073709551616",
        "join 1 4294967296", "join 4294967296 1", "split 300 0 4294967297", "length 4294967552", "free 4294967041",
        # refusals of blocks that no call gets
        "refuse 0", "length 1", "refuse 1", "length 1", "room 1", "length 1", "room 0", "held",
    ]


PARTS = {"A": row_a, "B": row_b, "C": row_c, "D": row_d, "E": row_e, "F": row_f, "G": row_g, "H": row_h, "W": row_long, "R": row_refused, "L": lines}

if __name__ == "__main__":
    for name in sys.argv[1:] or PARTS:
        for line in PARTS[name]():
            sys.stdout.buffer.write(line.encode("utf-8") + b"\n")
    if not sys.argv[1:]:
        sys.stdout.buffer.write(b"bytes that are no text: \xff\xfe\nheld")
