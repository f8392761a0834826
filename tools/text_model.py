#!/usr/bin/env python3
"""A second reading of document 01's program `tonetable`, and the inputs that hold its texts to it.

The record is read by record_model.py, which knows document 02's U1 and U9. The table follows
document 01's "Points", "Arithmetic" and "Kinds and tables", for the kinds that the inputs use:
Linear; MonotoneCubic and MonotoneCubicBox, which are meant where a record names none; and
ClampedCubic, without which there is no longest record. h00 to h11 and the splines' equations are
those of source document 000. From it come

  crates/tonetable/stdin, stdout      the longest record with a byte behind it, and its text
  crates/replay_text/stdin, stdout    a list of inputs, each with its length in two bytes in front,
                                      low byte first; and each one's number, length and text

  python3 tools/text_model.py            writes these files anew, the same on every machine
  python3 tools/text_model.py --check    says whether they are as the model has them
"""

import math
import struct
import sys
from pathlib import Path

sys.dont_write_bytecode = True
from record_model import CLAMPED, LEVEL, LIMIT, UNNAMED, Chance, Set
from record_model import at_levels, list_field, read, record_of, write

LINEAR, MONOTONE, BOX = 0, 2, 3


# ---- arithmetic -------------------------------------------------------------------------------


# "Each operation rounds once to single precision": Python's floats have more than twice the digits,
# so that rounding its sums, products, quotients and roots once more gives the right float.
def single(value):
    return struct.unpack("<f", struct.pack("<f", value))[0]


class Single:
    """A number of single precision."""

    def __init__(self, value):
        self.value = single(value)

    def __add__(self, other):
        return Single(self.value + other.value)

    def __sub__(self, other):
        return Single(self.value - other.value)

    def __mul__(self, other):
        return Single(self.value * other.value)

    def __truediv__(self, other):
        return Single(self.value / other.value)

    # "Square root is the correctly rounded one of IEEE 754"
    def root(self):
        return Single(math.sqrt(self.value))

    # "Clamp to 0..255"; "To a byte: nearest whole number, a half away from zero". The sum is one of
    # Python's floats and exact, so that the float just below 0.5 stays below 1.
    def byte(self):
        return math.floor(min(max(self.value, 0.0), 255.0) + 0.5)


ZERO, HALF, ONE, TWO, THREE, SIX = map(Single, (0, 0.5, 1, 2, 3, 6))


# ---- tables -----------------------------------------------------------------------------------


# "Knots: the kept points; if none stands at x = 0, one with the first y goes in front; if none at
# 255, one with the last y behind. An empty list gives (0,0),(255,0)." Of a height: "as a float it
# is that number over 256".
def knots(points):
    found = list(points) or [(0, 0)]
    if found[0][0] != 0:
        found.insert(0, (0, found[0][1]))
    if found[-1][0] != 255:
        found.append((255, found[-1][1]))
    return [(Single(x), Single(height) / Single(LEVEL)) for x, height in found]


# "The segment advances only while the next knot's x is less than x"
def segments(line):
    segment = 0
    for v in range(256):
        while line[segment + 1][0].value < v:
            segment += 1
        yield segment, Single(v)


def widths(line):
    return [b[0] - a[0] for a, b in zip(line, line[1:])]


def secants(line):
    return [(b[1] - a[1]) / (b[0] - a[0]) for a, b in zip(line, line[1:])]


# "Linear: y0 + (y1 − y0) × t", "t = (x − x0) / h"
def linear(line):
    for i, x in segments(line):
        (x0, y0), (x1, y1) = line[i], line[i + 1]
        yield y0 + (y1 - y0) * ((x - x0) / (x1 - x0))


# "a negative one sets its tangent 0"; "The Box kind caps each at 3 secants."
def held(kind, tangent, over, secant):
    if over.value < 0:
        return ZERO
    return THREE * secant if kind == BOX and over.value > 3 else tangent


# "A secant below 1e-9 in size sets both tangents 0. Else a, b are tangents over the secant";
# "if a × a + b × b > 9, both become 3 / root × a (or b) × secant, from the a and b before that
# zeroing"
def both_held(kind, left, right, secant):
    if abs(secant.value) < single(1e-9):
        return ZERO, ZERO
    a, b = left / secant, right / secant
    square = a * a + b * b
    if kind == MONOTONE and square.value > 9:
        scale = THREE / square.root()
        return scale * a * secant, scale * b * secant
    return held(kind, left, a, secant), held(kind, right, b, secant)


# "secants; mean of neighbours, one-sided at the ends; then segment by segment from the left"
def tangents(kind, line):
    rise = secants(line)
    found = [rise[0]] + [HALF * (a + b) for a, b in zip(rise, rise[1:])] + [rise[-1]]
    for i, secant in enumerate(rise):
        found[i], found[i + 1] = both_held(kind, found[i], found[i + 1], secant)
    return found


# "the file's h00, h10, h01, h11 with tangents m"
def hermite(line, m):
    h = widths(line)
    for i, x in segments(line):
        t = (x - line[i][0]) / h[i]
        h00 = (ONE + TWO * t) * (ONE - t) * (ONE - t)
        h10 = t * (ONE - t) * (ONE - t)
        h01 = t * t * (THREE - TWO * t)
        h11 = t * t * (t - ONE)
        y0, y1 = line[i][1], line[i + 1][1]
        yield h00 * y0 + h10 * h[i] * m[i] + h01 * y1 + h11 * h[i] * m[i + 1]


# "second derivatives by the Thomas solve, whose pivot below 1e-12 in size uses inverse 0"
def solve(below, middle, above, right):
    tops, sides = [], []
    for k, pivot in enumerate(middle):
        pivot = pivot - below[k] * tops[-1] if k else pivot
        inverse = ZERO if abs(pivot.value) < single(1e-12) else ONE / pivot
        sides.append((right[k] - below[k] * sides[-1] if k else right[k]) * inverse)
        tops.append(above[k] * inverse)
    found = [ZERO]
    for top, side in zip(reversed(tops), reversed(sides)):
        found.insert(0, side - top * found[0])
    return found[:-1]


# "ClampedCubic carries two slopes, signed 16-bit, each divided by 256"
def clamped(line, slopes):
    start, end = (Single(slope) / Single(256) for slope in slopes)
    h, rise = widths(line), secants(line)
    both = [ZERO] + h, h + [ZERO]
    middle = [TWO * h[0]] + [TWO * (a + b) for a, b in zip(h, h[1:])] + [TWO * h[-1]]
    right = [SIX * (b - a) for a, b in zip([start] + rise, rise + [end])]
    second = solve(both[0], middle, both[1], right)
    for i, x in segments(line):
        t, m, n, w = x - line[i][0], second[i], second[i + 1], h[i]
        c1 = rise[i] - w * (TWO * m + n) / SIX
        c2 = m / TWO
        c3 = (n - m) / (SIX * w)
        yield line[i][1] + c1 * t + c2 * t * t + c3 * t * t * t


def table(s):
    line = knots(s.master)
    if s.kind == LINEAR:
        return [y.byte() for y in linear(line)]
    if s.kind in (MONOTONE, BOX):
        return [y.byte() for y in hermite(line, tangents(s.kind, line))]
    assert s.kind == CLAMPED, "no model of kind %d" % s.kind
    return [y.byte() for y in clamped(line, s.carried)]


# ---- texts ------------------------------------------------------------------------------------


# "16 lines of 16 two-digit upper-case hexadecimal entries, one space between, from entry 0; or one
# line, `refused ` and the number"
def text(record):
    answer, s = read(record)
    if answer:
        return "refused %d\n" % answer
    entries = ["%02X" % entry for entry in table(s)]
    return "".join(" ".join(entries[i : i + 16]) + "\n" for i in range(0, 256, 16))


# ---- the stored inputs ------------------------------------------------------------------------


def longest(chance):
    lists = [chance.points(LIMIT) for _ in range(4)]
    return write(Set(lists[0], lists[1:], CLAMPED, [-300, 700]))


# 16 lines of 07: document 01's own; the same point without a kind, which means 2; and with bit 7,
# when it means 3.
FLAT = [0x11, 1, 0, 7, 0], [0x01, 1, 0, 7], [0x81, 1, 0, 7]

# Kinds 2 and 3 part here.
STEEP = at_levels([(0, 0), (50, 50), (70, 210), (255, 255)])


def of_both_kinds(points):
    """A list without a kind, without bit 7 and with it; with the kinds that these mean."""
    master = (0, list_field(points))
    for bit_7, kind in ([], UNNAMED[False]), ([(7, [])], UNNAMED[True]):
        yield record_of([master] + bit_7)
        yield record_of([master, (4, [kind])] + bit_7)


def inputs(chance):
    # documents 01's and 02's own: 16 lines of 07; P10, with a byte more; P11, an empty set
    yield from FLAT
    yield [0x11, 2, 0, 0, 255, 255, 0]
    yield [0x11, 2, 0, 0, 255, 255, 0, 0]
    yield [0x80]
    yield [0]
    # no input
    yield []
    # 2 to 7, without bit 7 and beside it
    for bit_7 in (0, 0x80):
        yield [bit_7 | 1]
        yield [bit_7 | 1, 65]
        yield [bit_7 | 1, 2, 9, 0, 9, 0]
        yield [bit_7 | 0x10, 10]
        yield [bit_7 | 0x20]
        yield [bit_7, 0]
    # what the racks hold, and what is written from now on
    for points in (STEEP, chance.points(7), chance.points(64)):
        yield from of_both_kinds(points)
    # the longest record; cut by a byte; with one byte behind it, with many
    record = longest(chance)
    assert len(record) == 522
    yield record
    yield record[:-1]
    yield record + [0]
    yield record + [255] * 502
    # as long an input whose front is a short record: 7, not a table
    yield [0x11, 1, 0, 7, 0] + list(b"more")
    yield [0x11, 1, 0, 7, 0] + [0] * 518
    yield [0x11, 1, 0, 7, 0] + [0] * 519
    # an input without end is no table either
    yield [0] * 1024
    # an empty master, a colour beside it, lists of some points
    yield write(Set([], [None, at_levels([(3, 4)]), None], LINEAR))
    for n in (1, 2, 3, 7, 64):
        yield write(Set(chance.points(n), kind=LINEAR))
        yield write(Set(chance.points(n), kind=CLAMPED, carried=chance.carried(CLAMPED)))


def files():
    chance = Chance(20250301)
    stored = list(inputs(chance))
    texts = {text(record) for record in stored}
    assert texts >= {"refused %d\n" % n for n in range(2, 8)} and "refused 1\n" not in texts
    assert {text(record) for record in FLAT} == {16 * (" ".join(["07"] * 16) + "\n")}
    old, old_named, new, new_named = map(text, of_both_kinds(STEEP))
    assert old == old_named != new == new_named
    behind = longest(Chance(7)) + [1]
    headed = ["%d, bytes: %d\n%s" % (i, len(r), text(r)) for i, r in enumerate(stored)]
    return {
        "tonetable/stdin": bytes(behind),
        "tonetable/stdout": text(behind).encode(),
        "replay_text/stdin": b"".join(len(r).to_bytes(2, "little") + bytes(r) for r in stored),
        "replay_text/stdout": "".join(headed).encode(),
    }


def main():
    folder = Path(__file__).resolve().parent.parent / "crates"
    made = files()
    if sys.argv[1:] == ["--check"]:
        paths = {name: folder / name for name in made}
        wrong = [n for n, p in paths.items() if not p.is_file() or p.read_bytes() != made[n]]
        print("not as the model has them:" if wrong else "as the model has them", *wrong)
        sys.exit(1 if wrong else 0)
    for name, data in made.items():
        (folder / name).write_bytes(data)
    print("%d inputs" % made["replay_text/stdout"].count(b", bytes: "))


if __name__ == "__main__":
    main()
