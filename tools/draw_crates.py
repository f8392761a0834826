#!/usr/bin/env python3
"""Draws docs/crates.svg from crates.txt: a row for each floor, and an arrow from a crate down to
each import that none of its other imports leads to. An arrow passes a floor in a slot of its own,
so that none runs behind a box.

usage: draw_crates.py [--check]

--check draws nothing. It says whether the picture is that of crates.txt, whether crates.txt lists
each crate under its floor, one above the highest that it imports, and whether a crate's files name
all that it imports. An import that they do not name and that is needed still has a line
`# unnamed in CRATE: IMPORT, REASON` in crates.txt.
"""
import pathlib
import re
import sys

ROOT = pathlib.Path(__file__).resolve().parent.parent
BOX, SLOT, HEIGHT, GAP, RISE, MARGIN, LABEL = 118, 8, 34, 18, 92, 20, 52
SWEEPS = 24
# a slot is drawn to the middle of its neighbours, and a little to that of the picture
PULL = 0.8


# ---- crates.txt
def read_list(text):
    """Each crate's imports, the floor that it is listed under, and the pairs that are excused."""
    imports, listed, excused, floor = {}, {}, set(), None
    for line in text.splitlines():
        heading = re.match(r"# floor (\d+)$", line)
        unnamed = re.match(r"# unnamed in (\w+): (\w+), .", line)
        if heading:
            floor = int(heading.group(1))
        elif unnamed:
            excused.add(unnamed.groups())
        elif line and not line.startswith("#"):
            head, _, rest = line.partition(":")
            # behind the name a line may have words, as `staticlib`
            name = head.split()[0]
            imports[name], listed[name] = rest.split(), floor
    return imports, listed, excused


def reached(name, imports):
    """All that a crate imports, and what these import in turn."""
    return set().union(*({d} | reached(d, imports) for d in imports.get(name, [])))


def nearest(name, imports):
    """The imports of a crate that no other import of it leads to."""
    further = set().union(*(reached(d, imports) for d in imports[name]))
    # what crates.txt does not list is the kit's
    return [d for d in imports[name] if d not in further and d in imports]


def floor_of(name, imports):
    return 1 + max((floor_of(d, imports) for d in imports[name] if d in imports), default=0)


def named_in(name):
    """The crates that a crate's files name, in code or in definitions and proofs."""
    named = set()
    for part in ("src", "specs", "proofs"):
        for file in (ROOT / "crates" / name / part).rglob("*.*"):
            if file.suffix not in (".rt", ".antt"):
                continue
            text = re.sub(r"(//|--).*", "", file.read_text())
            named.update(re.findall(r"\bRattle\.(\w+)\.", text))
            named.update(re.findall(r"(?<![\w:])(\w+)::", text))
    return named


def list_faults(imports, listed, excused):
    order = [listed[name] for name in imports]
    if None in order or order != sorted(order):
        yield "crates.txt: the floors do not stand from the lowest up"
    for name in imports:
        floor = floor_of(name, imports)
        if listed[name] != floor:
            yield f"crates.txt: {name} is on floor {floor}, and listed under {listed[name]}"
        named = named_in(name)
        for d in imports[name]:
            if d not in named and (name, d) not in excused:
                yield f"crates.txt: {name} imports {d}, which its files do not name"
    for name, d in sorted(excused):
        if d not in imports.get(name, []) or d in named_in(name):
            yield f"crates.txt: {name} needs no excuse for {d}"


# ---- the layout: rows of slots from the lowest floor up. A slot is a crate, or an arrow that
# passes the floor: (from, to, floor). Joins are pairs of slots of neighbouring floors, the upper
# first
def slots_of(imports):
    floors = {name: floor_of(name, imports) for name in imports}
    rows = [[n for n in imports if floors[n] == k + 1] for k in range(max(floors.values()))]
    arrows = []
    for name in imports:
        for d in nearest(name, imports):
            passed = range(floors[name] - 1, floors[d], -1)
            for floor in passed:
                rows[floor - 1].append((name, d, floor))
            arrows.append([name] + [(name, d, floor) for floor in passed] + [d])
    return rows, arrows


def joins_of(arrows):
    return [pair for arrow in arrows for pair in zip(arrow, arrow[1:])]


def neighbours(joins):
    below, above = {}, {}
    for upper, lower in joins:
        below.setdefault(upper, []).append(lower)
        above.setdefault(lower, []).append(upper)
    return below, above


def crossings(rows, joins):
    """How many pairs of joins between the same two floors cross."""
    place = {s: i for row in rows for i, s in enumerate(row)}
    row_of = {s: k for k, row in enumerate(rows) for s in row}
    count = 0
    for i, (a, b) in enumerate(joins):
        for c, d in joins[i + 1 :]:
            if row_of[a] == row_of[c] and (place[a] - place[c]) * (place[b] - place[d]) < 0:
                count += 1
    return count


def mean(values):
    return sum(values) / len(values)


def ordered(rows, joins):
    """The rows with few crossings: each sorted by the mean place of its neighbours, to and fro."""
    below, above = neighbours(joins)
    best, least = rows, crossings(rows, joins)
    for sweep in range(SWEEPS):
        side, step = (below, 1) if sweep % 2 == 0 else (above, -1)
        rows = [list(row) for row in rows]
        for row in rows[::step]:
            place = {s: i for r in rows for i, s in enumerate(r)}
            row.sort(key=lambda s: mean([place[t] for t in side.get(s, [])] or [place[s]]))
        found = crossings(rows, joins)
        if found < least:
            best, least = rows, found
    return swapped(best, joins, least)


def swapped(rows, joins, least):
    """The rows after each swap of two neighbours that saves a crossing."""
    again = True
    while again:
        again = False
        for k, row in enumerate(rows):
            for i in range(len(row) - 1):
                trial = row[:i] + [row[i + 1], row[i]] + row[i + 2 :]
                found = crossings(rows[:k] + [trial] + rows[k + 1 :], joins)
                if found < least:
                    rows, row, least, again = rows[:k] + [trial] + rows[k + 1 :], trial, found, True
    return rows


def wide(slot):
    return BOX if isinstance(slot, str) else SLOT


def spread(row, wish):
    """Places as near to the wished ones as order and widths allow (pool adjacent violators)."""
    offset, at = {}, 0
    for s in row:
        offset[s] = at + wide(s) / 2
        at += wide(s) + GAP
    pools = []
    for s in row:
        # an arrow that passes insists more than a box, so that it runs straight
        pools.append([(wish[s] - offset[s], 1 if isinstance(s, str) else 4, s)])
        while len(pools) > 1 and level(pools[-2]) > level(pools[-1]):
            last = pools.pop()
            pools[-1] += last
    return {s: level(pool) + offset[s] for pool in pools for _, _, s in pool}


def level(pool):
    return sum(x * weight for x, weight, _ in pool) / sum(weight for _, weight, _ in pool)


def placed(rows, joins):
    """Where the middle of each slot is, from left to right."""
    below, above = neighbours(joins)
    x = {}
    for row in rows:
        x.update(spread(row, dict.fromkeys(row, 0)))
    for sweep in range(10 * SWEEPS):
        for row in rows[:: 1 if sweep % 2 == 0 else -1]:
            near = {s: below.get(s, []) + above.get(s, []) for s in row}
            x.update(spread(row, {s: PULL * mean([x[t] for t in near[s]] or [0]) for s in row}))
    left = min(x[s] - wide(s) / 2 for s in x)
    return {s: x[s] - left + LABEL for s in x}


# ---- the picture
def kind_of(name):
    folder = ROOT / "crates" / name
    if (folder / "src" / "main.rt").exists():
        return "program"
    return "code" if "fn " in (folder / "src" / "lib.rt").read_text() else "laws"


def path_of(arrow, x, top):
    """From the first box's lower edge, straight through each slot, to the last's upper edge."""
    steps = [f"M{x[arrow[0]]:.0f} {top(arrow[0]) + HEIGHT}"]
    for upper, lower in zip(arrow, arrow[1:]):
        y0, y1 = top(upper) + HEIGHT, top(lower)
        bend = (y0 + y1) / 2
        steps.append(f"C{x[upper]:.0f} {bend:.0f} {x[lower]:.0f} {bend:.0f} {x[lower]:.0f} {y1}")
        if not isinstance(lower, str):
            steps.append(f"V{y1 + HEIGHT}")
    return f'<path d="{" ".join(steps)}" marker-end="url(#head)"/>'


STYLE = (
    "text{font:13px sans-serif;fill:#1b1b1b}.name{text-anchor:middle}.floor{fill:#777}"
    "rect{stroke:#444}.code{fill:#dcebf7}.laws{fill:#f6f0d8}.program{fill:#e0f0dc}"
    "path{fill:none;stroke:#8a949d;stroke-width:1.2}marker path{fill:#8a949d;stroke:none}"
)
HEAD = (
    '<marker id="head" viewBox="0 0 8 8" refX="8" refY="4" markerWidth="7" markerHeight="7" '
    'orient="auto"><path d="M0 0 8 4 0 8z"/></marker>'
)
LEGEND = (
    "blue: code and its proofs · yellow: definitions and laws alone · "
    "green: programs that the gate runs"
)


def draw(imports):
    rows, arrows = slots_of(imports)
    joins = joins_of(arrows)
    rows = ordered(rows, joins)
    x = placed(rows, joins)
    row_of = {s: k for k, row in enumerate(rows) for s in row}
    width = round(max(x[s] + wide(s) / 2 for s in x)) + MARGIN
    height = 2 * MARGIN + len(rows) * RISE

    def top(slot):
        return height - MARGIN - 30 - row_of[slot] * RISE - HEIGHT

    parts = [path_of(arrow, x, top) for arrow in arrows]
    for k, row in enumerate(rows):
        parts.append(f'<text x="{MARGIN}" y="{top(row[0]) + 22}" class="floor">{k + 1}</text>')
        for s in row:
            if isinstance(s, str):
                corner = f'x="{x[s] - BOX / 2:.0f}" y="{top(s)}" width="{BOX}" height="{HEIGHT}"'
                parts.append(f'<rect {corner} rx="5" class="{kind_of(s)}"/>')
                parts.append(f'<text x="{x[s]:.0f}" y="{top(s) + 22}" class="name">{s}</text>')
    parts.append(f'<text x="{MARGIN}" y="{height - 14}" class="floor">{LEGEND}</text>')
    size = f'viewBox="0 0 {width} {height}" width="{width}" height="{height}"'
    return (
        f'<svg xmlns="http://www.w3.org/2000/svg" {size}>\n<style>{STYLE}</style>\n'
        f'<defs>{HEAD}</defs>\n<rect width="100%" height="100%" style="fill:#fff;stroke:none"/>\n'
        + "\n".join(parts)
        + "\n</svg>\n"
    )


def main():
    imports, listed, excused = read_list((ROOT / "crates.txt").read_text())
    picture = draw(imports)
    target = ROOT / "docs" / "crates.svg"
    if "--check" not in sys.argv:
        target.write_text(picture)
        return 0
    faults = list(list_faults(imports, listed, excused))
    if not target.exists() or target.read_text() != picture:
        faults.append("docs/crates.svg is not what tools/draw_crates.py draws")
    print("\n".join(faults) or f"crates.txt: {len(imports)} crates, each under its floor")
    return 1 if faults else 0


if __name__ == "__main__":
    sys.exit(main())
