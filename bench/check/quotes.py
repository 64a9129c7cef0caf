#!/usr/bin/env python3
"""Checks that code which a page quotes from a file is there: a block of Rust after a line with a link to a .rt
file is a part of that file, and a block of Python or C after a line with a link to a .py or .c file is that file.
Prints what is not, and has the status 1 then.

python3 bench/check/quotes.py
"""

import re

import shared  # noqa: F401

import links
import page

# What a block of a language is quoted from, and whether it is the whole file.
QUOTED = {
    "```rust": (re.compile(r"\]\(([^)#]+\.rt)\)"), False),
    "```python": (re.compile(r"\]\(([^)#]+\.py)\)"), True),
    "```c": (re.compile(r"\]\(([^)#]+\.c)\)"), True),
}


def quotes(file):
    """The blocks of a page that follow a line with a link to one file, with that file, and whether the block is all of
    it."""
    linked, whole, block, before = None, False, None, ""
    for line in file.read_text().splitlines():
        if block is not None:
            if line == "```":
                yield linked, whole, "\n".join(block)
                block = None
            else:
                block.append(line)
        elif line in QUOTED and QUOTED[line][0].search(before):
            link, whole = QUOTED[line]
            linked, block = (file.parent / link.findall(before)[-1]).resolve(), []
        elif line.strip():
            before = line


def main():
    page.option()
    found, faults = 0, []
    for file in links.pages():
        for quoted, whole, block in quotes(file):
            found += 1
            text = quoted.read_text()
            if block not in text or whole and block + "\n" != text:
                where = f"{'' if whole else 'in '}{quoted.relative_to(page.TOP)}"
                faults.append(f"{file.relative_to(page.TOP)}: a block is not {where}: {block.splitlines()[0]}")
    page.end(faults, f"quotes: {found}")


if __name__ == "__main__":
    main()
