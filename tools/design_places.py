#!/usr/bin/env python3
"""The places of each point of docs/DESIGN-PASS.md in crates/*/src.

    python3 tools/design_places.py [-l] [COMMIT]

prints for each search how many lines it finds, and with -l the lines. Without COMMIT it reads the
working tree. Comments are left out.
"""
import re
import subprocess
import sys

SEARCHES = [
    ("1 an answer beside a value, a mark beside a value, an own enum for a Result",
     r"^ *pub enum Answer|^ *(pub )?answer: Answer,$|^ *(pub )?present: bool,$"),
    ("1 answers made, asked and joined by hand",
     r"is_done\(\)|first_of\(|Answer::[A-Z][a-z]"),
    ("1 functions on number codes",
     r"fn (number|kind_of|format_of|kind_bits|carries_[a-z]*|check_kind|format_answer)\("),
    ("3 loops that count by hand", r"^ *while "),
    ("4 equality, conversion, printing by hand",
     r"fn (same[a-z_]*|wide|byte_to_float|count_to_float|unsigned|stored_slope|slope|word|number"
     r"|height_of|digit|[a-z]*_digit|hexadecimal|put[a-z_]*|print[a-z_]*|size|one_more"
     r"|with_interpolation)\("),
    ("5 two rows that travel together", r"xs: &"),
    ("5 three tables that travel together", r"red: &.*green: &|^ *red: &"),
    ("5 the bounds of a count of knots in contracts", r"n ≤ 66"),
    ("6 a count beside a buffer", r"^ *(pub )?(count|length): usize,$"),
    ("6 a place beside the bytes that it is in",
     r"s: &\[u8\], (at|from): usize|line: &mut \[u8\], at: usize"),
    ("7 switches on which step to run",
     r"(boxed|centripetal): bool|match (form|kind|boundary|edition|heights|colour) \{"),
]

FUNCTION = re.compile(r"^( *)(pub )?fn ([a-z_0-9]+).*?^\1\}$", re.M | re.S)


def files(commit):
    if commit:
        out = subprocess.run(["git", "ls-tree", "-r", "--name-only", commit, "crates"],
                             capture_output=True, text=True, check=True).stdout.split("\n")
    else:
        out = subprocess.run(["git", "ls-files", "-co", "--exclude-standard", "crates"],
                             capture_output=True, text=True, check=True).stdout.split("\n")
    for name in sorted(set(out)):
        if re.fullmatch(r"crates/[a-z_0-9]+/src/[a-z_0-9]+\.rt", name):
            if commit:
                yield name, subprocess.run(["git", "show", commit + ":" + name],
                                           capture_output=True, text=True, check=True).stdout
            else:
                try:
                    yield name, open(name, encoding="utf-8").read()
                except FileNotFoundError:
                    pass


def code(text):
    """The lines without comments."""
    return [re.sub(r"//.*", "", line).rstrip() for line in text.split("\n")]


def shape(body):
    """A function's body with each number and name of its own replaced by what kind it is."""
    body = re.sub(r"(requires|ensures)( [a-z_]+)? \{.*?\}\n(?=\{|    (?:requires|ensures)|\{)", "",
                  body, flags=re.S)
    body = body[body.find("{\n"):]
    return re.sub(r"\s+", " ", re.sub(r"\b[0-9][0-9a-f_x.]*\b", "N", body))


def twins(sources):
    """Functions of at least four lines whose bodies have the same shape."""
    found = {}
    for name, text in sources:
        plain = "\n".join(code(text))
        for m in FUNCTION.finditer(plain):
            body = shape(m.group(0))
            if body.count(";") + body.count(",") >= 3 and "tone_exports" not in name:
                found.setdefault(body, []).append(name.split("/")[1] + "::" + m.group(3))
    return [names for names in found.values() if len(names) > 1]


def main():
    words = [w for w in sys.argv[1:] if w != "-l"]
    sources = list(files(words[0] if words else None))
    for what, pattern in SEARCHES:
        lines = [(n, i + 1, l) for n, t in sources for i, l in enumerate(code(t))
                 if re.search(pattern, l)]
        print(f"{len(lines):4}  {what}")
        if "-l" in sys.argv:
            for n, i, l in lines:
                print(f"        {n}:{i}:{l}")
    pairs = twins(sources)
    print(f"{sum(map(len, pairs)):4}  2 functions whose body stands twice, numbers aside")
    if "-l" in sys.argv:
        for names in pairs:
            print("        " + ", ".join(names))


main()
