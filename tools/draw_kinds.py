#!/usr/bin/env python3
"""Draws docs/kinds.svg: the ten kinds through one list of points, each from the table that
./tonetable prints for its record, and behind each in grey the one of Linear.
"""
import pathlib
import subprocess

ROOT = pathlib.Path(__file__).resolve().parent.parent
# a steep piece between flat ones, and a fall: there the kinds differ to the eye
POINTS = [(0, 56), (48, 62), (80, 176), (152, 186), (184, 92), (216, 100), (255, 164)]
KINDS = [
    "Linear",
    "CatmullRom",
    "MonotoneCubic",
    "MonotoneCubicBox",
    "NaturalCubic",
    "CentripetalCatmullRom",
    "ChordalCatmullRom",
    "Cardinal, tension 128/255",
    "ClampedCubic, slopes 0 and 0",
    "NotAKnotCubic",
]
LINEAR, CARDINAL, CLAMPED = 0, 7, 8
SIDE, GAP, COLUMNS = 192, 26, 5
SCALE = SIDE / 255
STYLE = (
    "text{font:12px sans-serif;fill:#1b1b1b}rect{fill:#fafafa;stroke:#bbb}"
    "polyline{fill:none;stroke:#1f6fb2;stroke-width:1.6}polyline.linear{stroke:#c4c4c4}"
    "circle{fill:#c0392b}"
)


def record(kind):
    """A master through POINTS under a kind: bit map, count, pairs, kind, and what it carries."""
    carried = {CARDINAL: (0x20, [128]), CLAMPED: (0x40, [0, 0, 0, 0])}.get(kind, (0, []))
    pairs = [byte for point in POINTS for byte in point]
    return bytes([0x11 | carried[0], len(POINTS), *pairs, kind, *carried[1]])


def table(kind):
    """The 256 entries that ./tonetable prints."""
    run = subprocess.run(
        [ROOT / "tonetable"], input=record(kind), stdout=subprocess.PIPE, check=True
    )
    printed = run.stdout.decode()
    if printed.startswith("refused"):
        raise SystemExit(f"kind {kind}: {printed}")
    return [int(entry, 16) for entry in printed.split()]


def place(left, top, x, y):
    return f"{left + x * SCALE:.1f},{top + SIDE - y * SCALE:.1f}"


def line(entries, left, top, mark=""):
    places = " ".join(place(left, top, v, y) for v, y in enumerate(entries))
    return f'<polyline{mark} points="{places}"/>'


def dot(left, top, x, y):
    across, down = place(left, top, x, y).split(",")
    return f'<circle cx="{across}" cy="{down}" r="3"/>'


def panel(kind, entries, linear, left, top):
    return (
        f'<rect x="{left}" y="{top}" width="{SIDE}" height="{SIDE}"/>'
        + (line(linear, left, top, ' class="linear"') if kind != LINEAR else "")
        + line(entries, left, top)
        + "".join(dot(left, top, x, y) for x, y in POINTS)
        + f'<text x="{left}" y="{top - 7}">{kind} {KINDS[kind]}</text>'
    )


def main():
    rows = (len(KINDS) + COLUMNS - 1) // COLUMNS
    width, height = GAP + COLUMNS * (SIDE + GAP), GAP + rows * (SIDE + GAP) + 8
    tables = [table(kind) for kind in range(len(KINDS))]
    panels = [
        panel(
            kind,
            entries,
            tables[LINEAR],
            GAP + kind % COLUMNS * (SIDE + GAP),
            GAP + 4 + kind // COLUMNS * (SIDE + GAP + 4),
        )
        for kind, entries in enumerate(tables)
    ]
    (ROOT / "docs" / "kinds.svg").write_text(
        f'<svg xmlns="http://www.w3.org/2000/svg" viewBox="0 0 {width} {height}"'
        f' width="{width}" height="{height}">\n<style>{STYLE}</style>\n'
        '<rect width="100%" height="100%" style="fill:#fff;stroke:none"/>\n'
        + "\n".join(panels)
        + "\n</svg>\n"
    )


if __name__ == "__main__":
    main()
