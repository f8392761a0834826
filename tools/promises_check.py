#!/usr/bin/env python3
"""Checks docs/PROMISES.md, line by line; `--write` writes its last section anew.

A block is a heading `### ..` and a fenced list, one role a line: the role, a file, names in that
file. A line without a role goes on with the role above it, a line without a file with the file
above it. A word of ASCII with a slash is a file, 𝟏/𝟐𝟓𝟔 is a name. The check says, with the line,
where

  a role is unknown, or a block has no role that can meet a sentence
  a file does not exist: a/B is crates/a/specs/B.antt, else the path is below crates/ or the root
  a file does not declare a name; behind `rules out` stand edits, a/b for crates/a/must-fail/b.edit
  prose has a name in backquotes that its block does not have (words of the paper stand in quotes)
  a line is wider than 100
  an edit is not named under `rules out`, or is named twice
  an edit's first line does not say what is wrong, with the fact that refuses it in backquotes,
    declared in the edit's crate
  the last section is not made of these comments

A name that is only mentioned does not count, in a comment or where it is used. What counts:

  .antt   NAME : ..              a definition, theorem, field or constructor, with pub, abbrev, ..
          record NAME, data NAME
  .rt .rs fn, struct, enum, const, .. NAME; Type::name stands in an impl of Type, or is its case
  .py     def NAME, class NAME, NAME = ..
  .h .c   a function, enum or constant of that name
  others  have no declarations: there a mention is enough
"""
import pathlib
import re
import sys
import textwrap

ROOT = pathlib.Path(__file__).resolve().parent.parent
CRATES = ROOT / "crates"
PAGE = ROOT / "docs" / "PROMISES.md"
WIDTH = 100
MEETS = ["theorem", "contract", "test", "document"]
ROLES = MEETS + ["words", "pinned by", "from", "code", "rules out"]
ROLE_COLUMNS = 11
MISSING = "missing"
BEGIN = "<!-- written by tools/promises_check.py --write -->"
END = "<!-- end of what is written -->"
ITEM = (
    r"^\s*(?:pub(?:\(\w+\))?\s+|extern\s+\"C\"\s+|unsafe\s+)*"
    r"(?:fn|struct|enum|const|static|mod|trait|type)\s+{}\b"
)
PATTERNS = {
    ".antt": [
        r"^\s*(?:(?:pub|abbrev|unfoldable|private|instance)\s+)*(?:{0}|_{0}_)\s+:(?:\s|$)",
        r"^\s*(?:pub\s+)?(?:record|data)\s+{0}(?:\s|$)",
    ],
    ".rt": [ITEM],
    ".rs": [ITEM],
    ".py": [r"^\s*(?:def|class)\s+{}\b", r"^{}\s*="],
    ".h": [
        r"^[a-z][^;=]*\b{}\(",
        r"^#define\s+{}\b",
        r"^\s+{}(?:,|\s*=|$)",
        r"^(?:struct|enum|union)\s+{}\b",
    ],
}
PATTERNS[".c"] = PATTERNS[".h"]


def declares(text, suffix, name):
    """Whether a file's text declares a name."""
    patterns = PATTERNS.get(suffix, [r"(?<![\w-]){}(?![\w-])"])
    return any(re.search(pattern.format(re.escape(name)), text, re.M) for pattern in patterns)


def bodies(text, keyword, name):
    """What is inside each `keyword name { .. }`, up to a closing brace in the same column."""
    block = r"^([ \t]*)(?:pub\s+)?{}(?:<[^>]*>)?\s+{}\b[^\n]*\{{\n(.*?)^\1\}}"
    found = re.finditer(block.format(keyword, re.escape(name)), text, re.M | re.S)
    return [block.group(2) for block in found]


def has_name(path, name):
    """Whether a file declares a name, Type::name in what belongs to Type."""
    text = path.read_text(errors="replace")
    owner, _, last = name.rpartition("::")
    if not owner or path.suffix not in (".rt", ".rs"):
        return declares(text, path.suffix, last)
    if any(declares(body, path.suffix, last) for body in bodies(text, "impl", owner)):
        return True
    case = rf"^\s*{re.escape(last)}(?:,|\s*\{{|\()"
    return any(re.search(case, body, re.M) for body in bodies(text, "enum", owner))


def file_of(name):
    """The file that a block's first column means, or None."""
    crate, _, module = name.partition("/")
    places = [CRATES / crate / "specs" / f"{module}.antt", CRATES / name, ROOT / name]
    return next((place for place in places if place.is_file()), None)


class Block:
    """A heading's list: the role and the file named last, and all that the list names."""

    def __init__(self, number, heading):
        self.number, self.heading = number, heading
        self.role, self.file, self.roles, self.words = None, None, set(), set()

    def line(self, line, named):
        """What is wrong with a line of the list; its edits are counted in `named`."""
        role, words = line[:ROLE_COLUMNS].strip(), line[ROLE_COLUMNS:].split()
        if role:
            self.role, self.file = role, None
            self.roles.add(role)
            if role not in ROLES:
                yield f"no role {role}"
        for word in words:
            self.words |= {word, word.rpartition("/")[2]}
            if self.role == "rules out":
                yield from self.edit(word, named)
            elif "/" in word and word.isascii():
                self.file = file_of(word) or MISSING
                if self.file is MISSING:
                    yield f"no file {word}"
            elif self.file is None:
                yield f"no file before {word}"
            elif self.file is not MISSING and not has_name(self.file, word):
                yield f"{self.file.relative_to(ROOT)} does not declare {word}"

    def edit(self, word, named):
        """What is wrong with the name of an edit."""
        named[word] = named.get(word, 0) + 1
        crate, _, edit = word.partition("/")
        if not (CRATES / crate / "must-fail" / f"{edit}.edit").is_file():
            yield f"no must-fail edit {word}"
        elif named[word] == 2:
            yield f"the edit {word} is named before"

    def end(self):
        """What is wrong with the whole of it."""
        if not self.roles & set(MEETS):
            yield f"no line of {self.heading} says what meets it: {', '.join(MEETS)}"


def page_faults(lines, named):
    """What is wrong with the page, with the numbers of the lines."""
    block, fenced = None, False
    for number, line in enumerate([*lines, "# the end"], 1):
        if len(line) > WIDTH:
            yield number, f"{len(line)} wide"
        if line.startswith("#"):
            if block is not None:
                yield from ((block.number, fault) for fault in block.end())
            block = Block(number, line.split()[1]) if line.startswith("### ") else None
        elif line.startswith("```"):
            fenced = not fenced
        elif fenced and block is not None:
            yield from ((number, fault) for fault in block.line(line, named))
        elif block is not None and block.roles:
            for word in re.findall(r"`([^`]+)`", line):
                if word not in block.words:
                    yield number, f"`{word}` is not named in the list above"


def comment(edit):
    """What an edit's first line says, or None."""
    first = edit.read_text().partition("\n")[0]
    return first[len("# ") :] if first.startswith("# ") else None


def edit_faults(edit):
    """What is wrong with an edit's comment."""
    text = comment(edit)
    if text is None:
        yield "the first line is no comment"
        return
    kinds = ("src/*.rt", "specs/*.antt", "proofs/*.antt")
    files = [file for kind in kinds for file in edit.parent.parent.glob(kind)]
    names = re.findall(r"`([^`]+)`", text)
    if not names:
        yield "the first line does not name, in backquotes, the fact that refuses it"
    for name in names:
        if not any(has_name(file, name) for file in files):
            yield f"its crate does not declare {name}"


def label(edit):
    """An edit as the page names it."""
    return f"{edit.parent.parent.name}/{edit.stem}"


def written(edits):
    """The lines of the last section, an edit each, an empty line between crates."""
    lines, crate = [], None
    for edit in edits:
        if label(edit).partition("/")[0] != crate:
            crate = label(edit).partition("/")[0]
            lines.append("")
        entry = f"- {label(edit)}: {comment(edit)}"
        lines += textwrap.wrap(
            entry, WIDTH, subsequent_indent="  ", break_long_words=False, break_on_hyphens=False
        )
    return [BEGIN, *lines, "", END]


def main():
    edits = sorted(CRATES.glob("*/must-fail/*.edit"), key=label)
    found = [f"{edit.relative_to(ROOT)}:1: {f}" for edit in edits for f in edit_faults(edit)]
    lines, named = PAGE.read_text().splitlines(), {}
    if lines.count(BEGIN) != 1 or lines.count(END) != 1 or lines.index(END) < lines.index(BEGIN):
        sys.exit(f"docs/PROMISES.md: the lines {BEGIN} and {END} are not there once, in this order")
    begin, end = lines.index(BEGIN), lines.index(END)
    section = written(edits)
    if sys.argv[1:] == ["--write"]:
        PAGE.write_text("\n".join([*lines[:begin], *section, *lines[end + 1 :]]) + "\n")
    elif lines[begin : end + 1] != section:
        found.append(
            f"docs/PROMISES.md:{begin + 1}: this section is not what the edits say;"
            " tools/promises_check.py --write"
        )
    lines[begin : end + 1] = [""] * (end + 1 - begin)
    found += [f"docs/PROMISES.md:{number}: {fault}" for number, fault in page_faults(lines, named)]
    found += [
        f"docs/PROMISES.md: {label(edit)} is not named under `rules out`"
        for edit in edits
        if label(edit) not in named
    ]
    done = f"docs/PROMISES.md: all names are declared, {len(named)} edits are named once"
    print("\n".join(found) or done)
    return 1 if found else 0


if __name__ == "__main__":
    sys.exit(main())
