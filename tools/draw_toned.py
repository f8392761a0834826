#!/usr/bin/env python3
"""Draws docs/toned.png: a dark picture, and the same toned by the C program of bindings/c
(`bindings/c/build` builds it).
"""
import math
import pathlib
import struct
import subprocess
import tempfile
import zlib

ROOT = pathlib.Path(__file__).resolve().parent.parent
WIDTH, HEIGHT, GAP = 480, 320, 16
# A record with master and blue. It has no bit 7 and names no kind, so it is of kind 2,
# MonotoneCubic: shadows go up, blue a little less.
MASTER = [(0, 0), (24, 64), (64, 150), (160, 220), (255, 255)]
BLUE = [(0, 6), (24, 58), (64, 136), (160, 206), (255, 246)]
RECORD = bytes([0x09, len(MASTER), *sum(MASTER, ()), len(BLUE), *sum(BLUE, ())])


def in_ellipse(x, y, across, down, wide, high):
    return ((x - across) / wide) ** 2 + ((y - down) / high) ** 2 < 1


def is_figure(x, y):
    """Someone at the table: a head, a neck, shoulders."""
    head = in_ellipse(x, y, 340, 122, 25, 32)
    neck = abs(x - 340) < 12 and 140 < y < 178
    shoulders = in_ellipse(x, y, 340, 262, 78, 90) and y <= 256
    return head or neck or shoulders


def pixel(x, y):
    """A room at night: a window at the left, someone in the dark at the right, a table."""
    light = 90 * math.exp(-((x - 120) ** 2 + (y - 100) ** 2) / 7200)
    room = 9 + 5 * y / 160
    if 68 < x < 172 and 44 < y < 168 and abs(x - 120) > 4 and abs(y - 106) > 4:
        return 120 + x // 4, 128 + x // 4, 150 + y // 4
    if is_figure(x, y):
        shade = room + 9 + 5 * math.cos((x - 290) / 22)
        return int(shade + 8), int(shade + 3), int(shade)
    table = 9 if y > 256 else 0
    red, green, blue = light * 0.9 + 1.2 * table, light * 0.8 + table, light + table / 2
    return int(room + red), int(room + green), int(room + blue)


def toned(raster):
    """The raster through the C program."""
    with tempfile.TemporaryDirectory() as folder:
        folder = pathlib.Path(folder)
        (folder / "record").write_bytes(RECORD)
        (folder / "in.ppm").write_bytes(b"P6\n%d %d\n255\n" % (WIDTH, HEIGHT) + raster)
        files = [folder / name for name in ("record", "in.ppm", "out.ppm")]
        subprocess.run([ROOT / "target/c/tonepicture", *files], check=True)
        return (folder / "out.ppm").read_bytes()[-len(raster) :]


def chunk(name, data):
    return struct.pack(">I", len(data)) + name + data + struct.pack(">I", zlib.crc32(name + data))


def png(width, height, rows):
    header = struct.pack(">IIBBBBB", width, height, 8, 2, 0, 0, 0)
    pixels = zlib.compress(b"".join(b"\0" + row for row in rows), 9)
    chunks = chunk(b"IHDR", header) + chunk(b"IDAT", pixels) + chunk(b"IEND", b"")
    return b"\x89PNG\r\n\x1a\n" + chunks


def main():
    before = bytes(v for y in range(HEIGHT) for x in range(WIDTH) for v in pixel(x, y))
    after = toned(before)
    row = 3 * WIDTH
    gap = b"\xff" * (3 * GAP)
    starts = range(0, HEIGHT * row, row)
    rows = [before[start : start + row] + gap + after[start : start + row] for start in starts]
    (ROOT / "docs" / "toned.png").write_bytes(png(2 * WIDTH + GAP, HEIGHT, rows))


if __name__ == "__main__":
    main()
