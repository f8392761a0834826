#!/usr/bin/env python3
"""Brings the repository's own definitions and lemmas to the library's spelling, once.

    tools/respell.py

Run at the top of the repository, right after the kit's port.py. A function or a lemma whose name
has a dash or a capital inside is put in snake case, in specs, proofs, clauses, must-fail edits and
the pages. A type, a fact and a name that begins with a letter that is not of ASCII stay. Where a
lemma and a function would fall together the lemma ends in _lem, as the library has it. It stops
where two other names would fall together.
"""

import collections
import glob
import os
import re
import sys

# What a name of the repository is called in a sentence of its own: these are not by the rule.
GIVEN = {
    # `result` is the returned value in a clause now
    "result": "read_result",
}
# A module that has the name of one that the kit makes.
MODULES = {"writing": {"Contracts": "Statements"}}
# Turned by port.py in the crates; here for the edits and the pages.
TURNED = """
a-copy, above-equal, above-zero, add-commutes, add-is, add-rounds, after-block, after-small,
all-done, all-map, all-read, all-take, and-both, answerOf, appended-then, as-written, at-first,
at-last, at-least, at-least-one, at-most, at-one, at-p, at-place, at-x, back-above, back-below,
back-from, back-inside, before-small, below-all, below-equal, below-half, below-length,
below-one, below-rows, bits-of, both-true, by-answer, by-end, by-first, by-front, by-number,
by-parts, by-product, by-sign, by-size, by-value, byte-above, byte-at, byte-high, byte-le,
byte-low, byte-small, byteAt, byteOf, bytes-rest, bytesOf, carried-same, carriedOf,
checked-refused, chosen-is, clamp-spec, close-more, copyOf, countOf, decides-not, digits-are,
div-is, div-self, down-to, drop-at, drop-le, each-from, each-same, end-back, end-read, endAt,
entryOf, equal-is, even-power, fetch-spec, field-back, fields-read, fill-spec, first-alone,
first-entry, first-past, first-stops, first-then, first-to, firstAt, firstOf, float-is,
float-le, formatOf, from-first, from-front, from-zero, front-rest, full-body, getD-part,
getD-tabulate, goes-on, half-up, has-room, height-spec, high-half, in-list, in-order, in-place,
inRow, inner-first, inputOf, is-negative, is-positive, is-same, isEmpty, joined-at, joined-back,
joined-length, just-enough, kept-more, kept-same, kindOf, last-entry, last-turn, layoutOf,
le-of, le-of-lt, le-of-not-lt, le-trans, le-up, left-is, left-out, length-from, length-part,
less-one, list-back, list-length, list-read, listOf, lowFirst, lt-of, main-spec, map-back,
map-is, mem-below, minus-is, mul-at, mul-commutes, mul-is, mul-most, mul-next, new-spec,
no-copies, no-copy, no-more, no-nan, no-rows, no-step, noRows, none-found, none-left,
none-passed, none-read, not-behind, not-first, numberOf, of-le, of-lt, on-line, one-at-most,
one-byte, one-index, one-less, one-more, one-of, one-table, one-value, only-here, own-root,
pairs-next, part-end, part-low, parts-next, parts-same, partsOf, past-the-end, pieceAt,
place-at, place-in, place-is, place-of, placesOf, plain-row, plainByte, pointOf, push-spec,
quotientOf, read-answer, read-whole, reads-on, reads-then, record-is, rep-zero, replace-spec,
rest-all, rest-some, right-end, rises-next, roomCheck, root-is, round-trip, row-small, rowAt,
rowBy, rowOf, rows-inside, rows-of, runOf, same-at, same-bit, same-bits, same-byte, same-bytes,
same-kind, same-length, same-parts, same-place, same-refl, same-rows, same-runs, same-size,
same-spec, same-view, signed-high, signed-low, size-above, size-is, size-of, some-bytes,
some-or-none, split-between, square-le, start-back, step-is, stepOf, store-below, store-kept,
store-then, stored-here, stored-next, stored-one, straight-line, sub-is, sum-is, sum-near,
sum-same, tableOf, tablesOf, textOf, then-same, three-ways, times-zero, to-last, too-many,
two-digits, types-of, unsigned-is, up-le, up-more, up-to, valueAt, viewOf, whole-float,
whole-from, whole-is, whole-le, whole-sub, whole-top, width-is, width-some, within-of,
write-done, written-apart, written-back, written-is, wrote-as, zero-is, zero-of
"""
# Two names that fall together, of crates that do not import one another's.
APART = {"inOrder": "in_order", "straightLine": "straight_line"}

WORD = r"[^\s(){}.;,@\"«»\[\]`]+"
DECLARED = re.compile(
    r"^ *(?:(?:abbrev|unfoldable|pub|opaque) +)*(?:(data|record|ruleset) +)?"
    rf"({WORD})(?: \{{[^{{}}]*\}}| \([^()]*\))* :(?!=)"
)
PLAIN = re.compile(r"[a-z][A-Za-z0-9'_-]*")
STANDING = re.compile(r"proofs/(?!\w+\.antt$)")


def in_snake_case(name):
    words = re.sub(r"(?<=.)[A-Z]", lambda m: "_" + m[0].lower(), name)
    return re.sub("_+", "_", words.replace("-", "_"))


def lemma_files():
    return sorted(glob.glob("crates/*/specs/*.antt") + glob.glob("crates/*/proofs/*.antt"))


def read(path):
    with open(path, encoding="utf-8") as it:
        return it.read()


def declared():
    names = set()
    for path in lemma_files():
        for line in read(path).split("\n"):
            m = DECLARED.match(line)
            name = m[2] if m else line.removeprefix("pub ") if line.startswith("pub ") else ""
            if PLAIN.fullmatch(name):
                names.add(name)
    return names


def table():
    names = declared()
    turned = {old: in_snake_case(old) for old in TURNED.replace(",", " ").split()}
    groups = collections.defaultdict(set)
    for name in names:
        groups[in_snake_case(name)].add(name)
    new = dict(turned)
    wrong = []
    for spelt, group in groups.items():
        lemmas = {n for n in group if "-" in n}
        others = group - lemmas
        if len(lemmas) > 1 or len(others - set(APART)) > 1:
            wrong.append(sorted(group))
        for name in group:
            new[name] = spelt + "_lem" if name in lemmas and others else spelt
    new |= APART | GIVEN
    if wrong:
        sys.exit(f"these fall together: {wrong}")
    return {old: to for old, to in new.items() if old != to}


def own(text, new):
    """The names that turn in a file: not those that it imports from a library."""
    crates = set(os.listdir("crates"))
    theirs = set()
    for path, items in re.findall(r"\buse ([^\s;{]+)\.\{([^}]*)\}", text):
        steps = path.split(".")
        if steps[0] != "Rattle" or steps[1] not in crates:
            theirs |= set(re.split(r"[\s,]+", items))
    return {old: to for old, to in new.items() if old not in theirs}


def tokens(text, new):
    def turn(m):
        name = m[0]
        return new.get(name, name)

    return re.sub(WORD, turn, text)


def in_ticks(text, new):
    return re.sub(r"`[^`\n]+`", lambda m: tokens(m[0], new), text)


CAMEL = re.compile(r"(?<![\w'-])[a-z]+(?:[0-9]*[A-Z][A-Za-z0-9]*)+(?![\w'-])")


def comment(text, new):
    text = in_ticks(text, new)
    return CAMEL.sub(lambda m: new.get(m[0], m[0]), text)


def antt(text, new):
    out = []
    for line in text.split("\n"):
        m = re.match(r"(.*?)((?:^|(?<=\s))--\s.*|(?:^|(?<=\s))--$)?$", line)
        out.append(tokens(m[1], new) + comment(m[2] or "", new))
    return "\n".join(out)


def standing(text, new):
    """A function's proof: the names that it imports from the repository, and fields."""
    mine = set()
    for path, items in re.findall(r"^use (Rattle\.\S+?)\.\{([^}]*)\}", text, re.M | re.S):
        if not path.startswith("Rattle.std"):
            mine |= set(re.split(r"[\s,]+", items))
    here = {old: to for old, to in new.items() if old in mine}

    def turn(m):
        if m[1] and m[2] in new and "_lem" not in new[m[2]]:
            return m[1] + new[m[2]]
        return m[1] + here.get(m[2], m[2])

    return re.sub(rf"((?<=[\w)'])\.|)({WORD})", turn, text)


def clauses(text, new):
    out = []
    for line in text.split("\n"):
        at = line.find("//")
        code, said = (line, "") if at < 0 else (line[:at], line[at:])
        out.append(tokens(code, {o: n for o, n in new.items() if o not in GIVEN}) + comment(said, new))
    return "\n".join(out)


def edit(text, new):
    out = []
    for line in text.split("\n"):
        if line.startswith("#"):
            out.append(comment(line, new))
        elif line.startswith(("old:", "new:")):
            out.append(line[:4] + tokens(line[4:], {o: n for o, n in new.items() if o not in GIVEN}))
        else:
            out.append(line)
    return "\n".join(out)


def modules():
    for crate, names in MODULES.items():
        for old, to in names.items():
            was = f"crates/{crate}/specs/{old}.antt"
            if os.path.exists(was):
                os.rename(was, f"crates/{crate}/specs/{to}.antt")
                for path in glob.glob("crates/**/*.antt", recursive=True) + glob.glob(
                    "crates/**/*.rt", recursive=True
                ):
                    text = read(path)
                    turned = text.replace(f"Rattle.{crate}.specs.{old}.", f"Rattle.{crate}.specs.{to}.")
                    if path == f"crates/{crate}/specs/Lib.antt":
                        turned = re.sub(rf"^pub mod {old}$", f"pub mod {to}", turned, flags=re.M)
                    if turned != text:
                        with open(path, "w", encoding="utf-8") as it:
                            it.write(turned)


def main():
    modules()
    new = table()
    words = {path: set(re.findall(WORD, read(path))) for path in lemma_files()}
    met = sorted({f"{o} -> {n}" for w in words.values() for o, n in new.items() if {o, n} <= w})
    if met:
        print("both in one file, to be looked at: " + ", ".join(met))
    for path in sorted(glob.glob("crates/**/*", recursive=True) + ["README.md"] + glob.glob("docs/*.md")):
        if "/out/" in path or not os.path.isfile(path):
            continue
        if path.endswith(".antt"):
            turn = standing if STANDING.search(path.split("/", 2)[2]) else antt
        elif path.endswith(".rt"):
            turn = clauses
        elif path.endswith(".edit"):
            turn = edit
        elif path.endswith(".md"):
            turn = in_ticks
        else:
            continue
        text = read(path)
        turned = turn(text, own(text, new))
        if turned != text:
            with open(path, "w", encoding="utf-8") as it:
                it.write(turned)
    print(f"{len(new)} names")


main()
