#!/usr/bin/env python3
"""Says where code divides a float by a literal power of two, which document 02's U3 wants as a
product: the older guides' float divide is slow. No contract can say it, for quotient and product
have the same bits (floats/specs/Reciprocal.antt); so it is said of the text: no divisor is a
literal such as 2.0 or 256.0. Other literals, 6.0 or 255.0, have no reciprocal among the floats and
stay. A divisor with a name is not looked at.
"""
import math
import pathlib
import re
import sys

ROOT = pathlib.Path(__file__).resolve().parent.parent
DIVISION = re.compile(r"/=?\s*\(?\s*(-?[\d_]+\.[\d_]*(?:e-?\d+)?)")


def divisors(file):
    """The line and the value of each literal that code divides by."""
    for number, line in enumerate(file.read_text().splitlines(), 1):
        for literal in DIVISION.findall(line.partition("//")[0]):
            yield number, float(literal.replace("_", ""))


def main():
    found = [
        (file.relative_to(ROOT), number, value)
        for file in sorted(ROOT.glob("crates/*/src/**/*.rt"))
        for number, value in divisors(file)
    ]
    wrong = [
        f"{file}:{number}: a quotient by {value}: write the product with {1 / value}"
        for file, number, value in found
        if math.frexp(abs(value))[0] == 0.5
    ]
    if not found:
        wrong = ["no quotient by a literal was found at all"]
    print("\n".join(wrong) or f"quotients: {len(found)} by literals, none by a power of two")
    return 1 if wrong else 0


if __name__ == "__main__":
    sys.exit(main())
