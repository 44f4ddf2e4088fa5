#!/usr/bin/env python3
"""Prints each function of crates/ with more than five assertions in its body, and their number: python3 tools/assertions.py [MOST]

What a body takes to prove grows faster than the number of its assertions: a table and a loop, or a helper that answers a bool, compares
the same. The status is 1 where there is such a function."""
import pathlib
import re
import sys

TOP = pathlib.Path(__file__).resolve().parent.parent
FUNCTION = re.compile(r"^( *)(?:pub(?:\(crate\))? )?(?:const )?fn (\w+).*?^\1}", re.M | re.S)
ASSERTION = re.compile(r"\b(?:assert|assert_eq|assert_ne)!")


def main(most):
    found = 0
    for file in sorted(TOP.glob("crates/*/src/**/*.rt")):
        for function in FUNCTION.finditer(file.read_text(encoding="utf-8")):
            number = len(ASSERTION.findall(function[0]))
            if number > most:
                found += 1
                print(f"{file.relative_to(TOP)}: {function[2]} has {number} assertions")
    return found > 0


if __name__ == "__main__":
    sys.exit(main(int(sys.argv[1]) if len(sys.argv) > 1 else 5))
