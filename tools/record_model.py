#!/usr/bin/env python3
"""A second reading of document 01's "Stored record" and "When a call says no", as document 02's U1
and U9 change them, and the lists of records that hold the engine to it.

The model of document 01 was written from that paper alone, without a look at the engine's code; U1
and U9 were added to it when the engine had them already. `read` and `write` below follow the
papers' sentences, which stand beside them, and share no code with the engine. From it come the two
files of the test program crates/replay_records:

  stdin   the stored list: for each record its length in two bytes, low byte first, then its bytes
  stdout  what the program must print, a line for each record of the list and one for each map byte
          of the walk over all records of up to two bytes

A record's line is its number in the list and its text (`text`). A walk's line has the text of the
record that is the map byte alone, how often each answer 0 to 7 comes among the 256 records of two
bytes, and a digest of their texts, so that the set and the written record of each are compared too.
"Refusal 1 therefore never occurs any more": its count is 0. The program reads each written record
again and marks it if that is not the same set. 20, which no reader of these records answers, is the
writer's answer for a set that was read, with one height made fine.

  python3 tools/record_model.py            writes both files anew, the same on every machine
  python3 tools/record_model.py --check    says whether they are as the model has them
"""

import sys
from pathlib import Path

LIMIT = 64
CARDINAL, CLAMPED, KINDS = 7, 8, 10

# "MonotoneCubicBox (3) as the default for new sets"; "Elsewhere the default kind is 3, also in the
# set handed back with a refused record."
DEFAULT = 3

# The kind of a record without bit 4, by its bit 7: "Records in the racks without bit 4 relied on
# kind 2 and must still show kind 2. From now on bit 7 says "new default": with it, a missing kind
# means 3." A stored record keeps what it means, whatever becomes of DEFAULT.
UNNAMED = {False: 2, True: 3}


# "A point's height becomes a 16-bit number of 256ths of a level, 0 to 65,280"
LEVEL, HIGHEST = 256, 65280


# "Heights written in document 01 are levels."
def at_levels(points):
    return [(x, y * LEVEL) for x, y in points]


class Set:
    """A master, three optional colours and a kind with what it carries: nothing, a tension or two
    slopes. A list has an x and a height for each point.
    """

    def __init__(self, master=(), colours=(None, None, None), kind=DEFAULT, carried=()):
        self.master, self.colours = list(master), list(colours)
        self.kind, self.carried = kind, list(carried)

    def members(self):
        return self.master, self.colours, self.kind, self.carried


# ---- reading -------------------------------------------------------------------------------------


class Refused(Exception):
    def __init__(self, number):
        self.number = number


class Bytes:
    """The record's bytes from the front."""

    def __init__(self, record):
        self.left = list(record)

    # "2. A record ends before its map or inside a field whose bit stands."
    def take(self, n):
        if len(self.left) < n:
            raise Refused(2)
        taken, self.left = self.left[:n], self.left[n:]
        return taken


def rises(points):
    return all(a[0] < b[0] for a, b in zip(points, points[1:]))


# "a missing count, 3, missing points, 4"; "Today's stored record holds whole heights only."
def read_list(record, is_master):
    (count,) = record.take(1)
    # "3. A count of points is above 64, or a record's master count is 0."
    if count > LIMIT or (is_master and count == 0):
        raise Refused(3)
    pairs = record.take(2 * count)
    points = at_levels(zip(pairs[0::2], pairs[1::2]))
    # "4. A record's or set's points don't strictly rise in x."
    if not rises(points):
        raise Refused(4)
    return points


# "two's complement, low byte first"
def signed(low, high):
    value = low + 256 * high
    return value - 65536 if value >= 32768 else value


def fields(record):
    (bits,) = record.take(1)
    stands = [bits >> i & 1 == 1 for i in range(8)]
    # "Bit 0 off: empty master; 1 to 3 off: absent colour, a count of 0 being an empty one"
    result = Set(kind=UNNAMED[stands[7]])
    if stands[0]:
        result.master = read_list(record, True)
    for i in range(3):
        if stands[1 + i]:
            result.colours[i] = read_list(record, False)
    # "a missing kind byte, 5"
    if stands[4]:
        (result.kind,) = record.take(1)
        if result.kind >= KINDS:
            raise Refused(5)
    # "then 6, and only then 2 for tension or slopes"; "Bit 5 stands with Cardinal only, bit 6 with
    # ClampedCubic only, and always then."
    if stands[5] != (result.kind == CARDINAL) or stands[6] != (result.kind == CLAMPED):
        raise Refused(6)
    if stands[5]:
        result.carried = record.take(1)
    if stands[6]:
        start_low, start_high, end_low, end_high = record.take(4)
        result.carried = [signed(start_low, start_high), signed(end_low, end_high)]
    # "7. Bytes follow the last field."
    if record.left:
        raise Refused(7)
    return result


def read(record):
    """The answer, and the set; beside a refusal "the empty set of the default kind, without
    colours".
    """
    try:
        return 0, fields(Bytes(record))
    except Refused as refused:
        return refused.number, Set()


# ---- writing -------------------------------------------------------------------------------------


def list_field(points):
    return [len(points)] + [byte for x, height in points for byte in (x, height // LEVEL)]


def carried_field(kind, carried):
    return (
        [byte for slope in carried for byte in (slope % 256, slope % 65536 // 256)]
        if kind == CLAMPED
        else list(carried)
    )


def record_of(bits_and_fields):
    """A map of the bits that stand, then their fields in the bits' order. Also used with damaged
    fields.
    """
    bits = sum(1 << bit for bit, _ in bits_and_fields)
    return [bits] + [byte for _, field in sorted(bits_and_fields) for byte in field]


def parts(s):
    """The fields that the writer gives a set, each with its bit: no empty master, no absent colour,
    and "The writer sets bit 7 always and leaves the kind out when it is 3." Bit 7 has no field.
    """
    found = [(0, list_field(s.master))] if s.master else []
    found += [
        (1 + i, list_field(colour)) for i, colour in enumerate(s.colours) if colour is not None
    ]
    found += [(4, [s.kind])] if s.kind != UNNAMED[True] else []
    found += [(5, carried_field(s.kind, s.carried))] if s.kind == CARDINAL else []
    found += [(6, carried_field(s.kind, s.carried))] if s.kind == CLAMPED else []
    return found + [(7, [])]


# "A set's present lists go master, red, green, blue, used or not, each with 3 and then 4"; "20 a
# height above 65,280 in a list or set, or, when today's record is written, one that isn't a
# multiple of 256; it is tested in each list after 3 and 4, before the next list and all later
# checks."
def check_written(s):
    for points in [s.master] + [colour for colour in s.colours if colour is not None]:
        if len(points) > LIMIT:
            raise Refused(3)
        if not rises(points):
            raise Refused(4)
        if any(height > HIGHEST or height % LEVEL for _, height in points):
            raise Refused(20)


def write(s):
    check_written(s)
    return record_of(parts(s))


def write_answer(s):
    try:
        write(s)
        return 0
    except Refused as refused:
        return refused.number


# ---- what the program prints ---------------------------------------------------------------------


def hexadecimal(data):
    return "".join("%02x" % byte for byte in data)


def list_text(points):
    """The x and the height of each point, or `-` for an absent colour."""
    return "-" if points is None else "".join("%02x%04x" % point for point in points)


def with_fine_height(s):
    """The set with the master's first point one 256th above its level; an empty master stays."""
    first = [(x, height // LEVEL * LEVEL + 1) for x, height in s.master[:1]]
    return Set(first + s.master[1:], s.colours, s.kind, s.carried)


def text(record):
    """The answer's number, the set member by member, and unless it is refused the record that the
    writer makes of the set, and what it answers for the same set with a fine height.

    The set: M, R, G, B with their points; K with the kind's number and the tension or the slopes.
    """
    answer, s = read(record)
    lists = zip("MRGB", [s.master] + s.colours)
    words = ["%d" % answer] + [name + list_text(points) for name, points in lists]
    words += ["K%d" % s.kind] + ["%d" % number for number in s.carried]
    if answer:
        return " ".join(words)
    assert read(write(s))[1].members() == s.members(), record
    fine = write_answer(with_fine_height(s))
    assert fine == (20 if s.master else 0), record
    return " ".join(words + ["=", hexadecimal(write(s)), "^", "%d" % fine])


def digest(texts):
    """FNV-1a of 32 bits (Fowler, Noll and Vo), over the texts as lines."""
    h = 0x811C9DC5
    for byte in "".join(text + "\n" for text in texts).encode():
        h = (h ^ byte) * 0x01000193 % 2**32
    return h


def walk():
    yield "no bytes: %s" % text([])
    for bits in range(256):
        texts = [text([bits, second]) for second in range(256)]
        counts = " ".join("%d" % sum(t[0] == "%d" % answer for t in texts) for answer in range(8))
        yield "map %s: %s; %s %08x" % (hexadecimal([bits]), text([bits]), counts, digest(texts))


# ---- the stored list -----------------------------------------------------------------------------


class Chance:
    """Numbers that look like chance and are the same everywhere: xorshift of 32 bits (Marsaglia
    2003).
    """

    def __init__(self, seed):
        self.state = seed

    def below(self, n):
        x = self.state
        x ^= x << 13 & 0xFFFFFFFF
        x ^= x >> 17
        x ^= x << 5 & 0xFFFFFFFF
        self.state = x
        return x % n

    def points(self, n):
        xs = set()
        while len(xs) < n:
            xs.add(self.below(256))
        return at_levels((x, self.below(256)) for x in sorted(xs))

    def carried(self, kind):
        count = {CARDINAL: 1, CLAMPED: 2}.get(kind, 0)
        return [
            self.below(256) if kind == CARDINAL else self.below(65536) - 32768 for _ in range(count)
        ]


# Cases that do not come from this model: a record, its answer, the set's kind, and the record that
# the present writer makes of the set. Those of U1 are from an earlier model of it, which is not
# kept here. Among them document 01's P10, with a byte more too, and P11, which "becomes an accepted
# empty set".
CASES = [
    ("", 2, 3, None),
    ("00", 0, 2, "90 02"),
    ("80", 0, 3, "80"),
    ("82 00", 0, 3, "82 00"),
    ("90 02", 0, 2, "90 02"),
    ("90 03", 0, 3, "80"),
    ("10 02", 0, 2, "90 02"),
    ("10 03", 0, 3, "80"),
    ("A0", 6, 3, None),
    ("90", 2, 3, None),
    ("90 0A", 5, 3, None),
    ("B0 07 FF", 0, 7, "B0 07 FF"),
    ("F0 07 00", 6, 3, None),
    ("80 00", 7, 3, None),
    ("81", 2, 3, None),
    ("FF 00", 3, 3, None),
    ("D0 08 00 80 FF 7F", 0, 8, "D0 08 00 80 FF 7F"),
    ("11 02 00 00 FF FF 00", 0, 0, "91 02 00 00 FF FF 00"),
    ("11 02 00 00 FF FF 00 00", 7, 3, None),
    ("91 02 00 00 FF FF 00", 0, 0, "91 02 00 00 FF FF 00"),
    ("01 01 00 07", 0, 2, "91 01 00 07 02"),
    ("81 01 00 07", 0, 3, "81 01 00 07"),
    # the input of `tonetable`
    ("11 01 00 07 00", 0, 0, "91 01 00 07 00"),
]


def cases():
    for given, answer, kind, written in CASES:
        record = list(bytes.fromhex(given))
        number, s = read(record)
        assert (number, s.kind) == (answer, kind), given
        assert answer or write(s) == list(bytes.fromhex(written)), given
        yield record


STRAIGHT = at_levels([(0, 0), (255, 255)])
EDGE_SLOPES = [-32768, -32767, -257, -256, -255, -1, 0, 1, 127, 128, 255, 256, 257, 32767]
EDGE_TENSIONS = [0, 1, 127, 128, 254, 255]


def good_sets(chance):
    # every kind with every combination of colours, with and without a master; colours of no points
    # among them
    for kind in range(KINDS):
        for present in range(8):
            colours = [
                chance.points(chance.below(4)) if present >> i & 1 else None for i in range(3)
            ]
            for n in (0, 1 + chance.below(5)):
                yield Set(chance.points(n), colours, kind, chance.carried(kind))
    # one list at a time, and all four, of 63 and of 64 points: the last is the longest record
    for n in (63, 64):
        yield Set(chance.points(n))
        for i in range(3):
            yield Set(STRAIGHT, [chance.points(n) if j == i else None for j in range(3)])
    yield Set(chance.points(64), [chance.points(64) for _ in range(3)], CLAMPED, [-2, 258])
    # the ends of x, neighbouring x
    yield Set(at_levels([(0, 255)]))
    yield Set([(255, 0)])
    yield Set(
        at_levels((x, 255 - x) for x in range(64)),
        [at_levels((x, x) for x in range(192, 256)), [], [(127, 0), (128, 0)]],
    )
    for tension in EDGE_TENSIONS:
        yield Set(STRAIGHT, kind=CARDINAL, carried=[tension])
    for i, slope in enumerate(EDGE_SLOPES):
        yield Set(STRAIGHT, kind=CLAMPED, carried=[slope, EDGE_SLOPES[i - 3]])


def good_records(s):
    """A set's record that names its kind; of the kinds that a record may leave out, 2 and 3, the
    same without it too.
    """
    others = [part for part in parts(s) if part[0] != 4]
    yield record_of(others + [(4, [s.kind])])
    if s.kind in UNNAMED.values():
        yield record_of(others)


def damaged_lists(chance):
    """A list's bit, and lists that are refused with 3 or 4, or end too soon when the list is the
    last field.
    """
    for bit in range(4):
        for count in (65, 66, 128, 255):
            yield bit, [count]
            yield bit, [count] + [byte for x in range(count) for byte in (x, 0)]
        # equal or falling x at the first, a middle and the last pair
        for n in (2, 3, 17, 64):
            for at in sorted({1, n // 2, n - 1}):
                for back in (0, 1):
                    points = chance.points(n)
                    points[at] = (max(points[at - 1][0] - back, 0), points[at][1])
                    yield bit, list_field(points)
        # the points end too soon and fall before that
        yield bit, [3, 9, 9, 9, 9, 1]
        yield bit, [4, 9, 9, 8, 9]
    yield 0, [0]
    yield 0, [0, 1, 2]


def damaged(chance, good):
    # the kinds that a record may leave out: named; with a byte more; the kind byte without bit 4
    for s in good[:: len(good) // 12]:
        lists = [part for part in parts(s) if part[0] < 4]
        for kind in UNNAMED.values():
            yield record_of(lists + [(4, [kind])])
            yield record_of(lists + [(4, [kind])]) + [kind]
            yield record_of(lists) + [kind]
    # 2 at every place: records with all fields, each with tension or slopes or neither
    for kind in (0, CARDINAL, CLAMPED):
        whole = write(
            Set(
                chance.points(3),
                [chance.points(2), [], chance.points(1)],
                kind,
                chance.carried(kind),
            )
        )
        for n in range(len(whole) + 1):
            yield whole[:n]
    # any map before good fields
    for s in good[::12]:
        yield [chance.below(256)] + write(s)[1:]
    # 3 and 4 in each list: as the last field; with good fields before; with a kind byte behind that
    # would be 5
    for bit, field in damaged_lists(chance):
        before = [(i, list_field(chance.points(1 + chance.below(3)))) for i in range(bit)]
        yield record_of([(bit, field)])
        yield record_of(before + [(bit, field)])
        yield record_of([(bit, field), (4, [10 + chance.below(246)])])
    # the master's refusal before a colour's, a colour's before the next one's
    for first in range(3):
        yield record_of([(first, [65]), (first + 1, [2, 7, 0, 7, 0])])
        yield record_of([(first, [2, 7, 0, 7, 0]), (first + 1, [65])])
        yield record_of([(first, [2, 7, 0, 6, 0]), (first + 1, [])])
    # 5: with and without bits 5 and 6, with and without what they would carry
    for kind in (10, 11, 16, 127, 128, 254, 255):
        for carried in (
            [],
            [(5, [])],
            [(5, [9])],
            [(6, [])],
            [(6, [1, 2, 3, 4])],
            [(5, [9]), (6, [1, 2, 3, 4])],
        ):
            yield record_of([(0, [1, 3, 4]), (4, [kind])] + carried)
    # 6: every kind, and the kind left out, with each wrong pair of bits; whole, without the bytes,
    # with bytes too many
    for kind in [None] + list(range(KINDS)):
        named = [] if kind is None else [(4, [kind])]
        for five in (False, True):
            for six in (False, True):
                carried = [(5, [9])] * five + [(6, [1, 2, 3, 4])] * six
                whole = record_of([(0, [1, 3, 4])] + named + carried)
                yield whole
                yield whole[: 4 + len(named)]
                yield whole + [0]
    # 2 inside tension and slopes comes after 6
    for n in range(5):
        yield record_of([(4, [CLAMPED]), (6, [1, 2, 3, 4][:n])])
        yield record_of([(4, [CARDINAL]), (5, [9, 9, 9, 9][:n])])
    # 7 behind good records, by one byte and by many; it comes last
    for i, s in enumerate(good[::9]):
        yield write(s) + [chance.below(256) for _ in range((1, 2, 7, 255)[i % 4])]
    yield max(map(write, good), key=len) + [0]
    # one byte of a good record changed, left out or put in
    for s in good[::3]:
        record = write(s)
        at = chance.below(len(record))
        change = [[], [chance.below(256)], [chance.below(256), record[at]]][chance.below(3)]
        yield record[:at] + change + record[at + 1 :]


def in_both_ways(records):
    """Each record, and the same with its bit 7 turned: so kinds are named and left out, with bit 7
    and without it, and each refusal comes beside bit 7 as it comes without it.
    """
    for record in records:
        yield record
        if record:
            yield [record[0] ^ 0x80] + record[1:]


def stored_list():
    chance = Chance(20240801)
    good = list(good_sets(chance))
    whole = [record for s in good for record in good_records(s)]
    return list(cases()) + list(in_both_ways(whole + list(damaged(chance, good))))


def main():
    records = stored_list()
    answers = [read(record)[0] for record in records]
    assert len(records) >= 300 and 1 not in answers, answers
    assert all(answers.count(n) >= 20 for n in range(8) if n != 1), answers
    lines = ["%d: %s" % (i, text(record)) for i, record in enumerate(records)] + list(walk())
    folder = Path(__file__).resolve().parent.parent / "crates" / "replay_records"
    files = {
        "stdin": b"".join(len(record).to_bytes(2, "little") + bytes(record) for record in records),
        "stdout": "".join(line + "\n" for line in lines).encode(),
    }
    if sys.argv[1:] == ["--check"]:
        wrong = [
            name
            for name, data in files.items()
            if not (folder / name).is_file() or (folder / name).read_bytes() != data
        ]
        print(
            "not as the model has them: " + ", ".join(wrong) if wrong else "as the model has them"
        )
        sys.exit(1 if wrong else 0)
    for name, data in files.items():
        (folder / name).write_bytes(data)
    counts = ", ".join("%d with %d" % (answers.count(n), n) for n in range(8))
    print(
        "%d records in the list: %s; the longest has %d bytes"
        % (len(records), counts, max(map(len, records)))
    )


if __name__ == "__main__":
    main()
