#!/usr/bin/env python3
"""Checks that the text of each fault is tested.

python3 bench/check/faults.py

The test `faults` of tool_tests compares its lines with what `Display` writes. Each type of the product that derives
`Error`, and each of its variants, must have a line there, and each line must be of such a type. The status is 1
otherwise.
"""

import re

import shared  # noqa: F401

import page
import tower

CRATES = page.TOP / "crates"
TEST = CRATES / "tool_tests" / "src" / "faults.rt"
TYPE = re.compile(r"#\[derive\([^)]*\bError\b[^)]*\)\]\n(?:#\[.*\n)*pub (enum|struct) (\w+)", re.M)
VARIANT = re.compile(r"^    (\w+)\b", re.M)
LINES = re.compile(r'^const \w+: &str = "\\\n(.*?)^";', re.M | re.S)


def types():
    """Each type of a fault: its name, and the names that its values begin with."""
    for crate in tower.product():
        for file in sorted((CRATES / crate / "src").rglob("*.rt")):
            text = file.read_text()
            for found in TYPE.finditer(text):
                body = text[found.end() :].partition("\n}")[0]
                yield (
                    found[2],
                    [f"{found[2]}::{it}" for it in VARIANT.findall(body)] if found[1] == "enum" else [found[2]],
                )


def main():
    page.option()
    lines = [it for text in LINES.findall(TEST.read_text()) for it in text.splitlines()]
    known, faults = set(), [] if lines else [f"{TEST.name} has no lines"]
    for name, begins in types():
        known.add(name)
        faults += [
            f"{TEST.name} has no line of {it}" for it in begins if not any(re.match(rf"{it}\b", line) for line in lines)
        ]
    named = [re.match(r"\w+", line)[0] for line in lines]
    faults += [f"{TEST.name}: no fault is called {it}" for it in named if it not in known]
    page.end(faults, f"{len(lines)} texts of faults")


if __name__ == "__main__":
    main()
