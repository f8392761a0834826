#!/usr/bin/env python3
"""Says which must-fail edits no longer fit their crate: each file is there, each old text is in it
once, each pair changes something, and no line is one that `rt` would pass over in silence. The gate
would find most of it too, after half an hour.
"""
import pathlib
import sys

ROOT = pathlib.Path(__file__).resolve().parent.parent


def faults(edit):
    """What is wrong with an edit, whose pairs are applied one after the other."""
    crate, text, name, old, pairs = edit.parent.parent, {}, None, None, 0
    for line in edit.read_text().splitlines():
        key, _, rest = line.partition(": ")
        if key == "file":
            name = rest
            if not (crate / name).is_file():
                yield f"there is no {name}"
                return
            text.setdefault(name, (crate / name).read_text())
        elif key == "old":
            old = rest
        elif line.startswith("new:") and name is not None and old is not None:
            new = line[len("new: ") :]
            if text[name].count(old) != 1:
                yield f"found {text[name].count(old)} times in {name}: {old.strip()}"
            if new == old:
                yield f"changes nothing: {old.strip()}"
            text[name] = text[name].replace(old, new)
            old, pairs = None, pairs + 1
        elif line.strip() and not line.startswith("#"):
            yield f"a line that is passed over: {line.strip()}"
    if not pairs or old is not None:
        yield "no pair of old and new, or half a pair"


def main():
    edits = sorted(ROOT.glob("crates/*/must-fail/*.edit"))
    found = [f"{edit.relative_to(ROOT)}: {fault}" for edit in edits for fault in faults(edit)]
    if not edits:
        found = ["there are no must-fail edits"]
    print("\n".join(found) or f"must-fail: {len(edits)} edits fit their crates")
    return 1 if found else 0


if __name__ == "__main__":
    sys.exit(main())
