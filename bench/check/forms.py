#!/usr/bin/env python3
"""Checks that docs/DECISIONS.md speaks of calls as the crates have them.

python3 bench/check/forms.py

Its table of forms names each call as CRATE::CALL or CRATE::TYPE::CALL: that must be a public function, and each piece
of code under 'Here' must be in its signature or in one of its `requires`. The status is 1 where one does not, or
where the table has no row.
"""

import functools
import re

import shared  # noqa: F401

import page
from refusals_table import CRATES, blocks, public_modules, public_types, signature_and_clauses

DECISIONS = page.TOP / "docs" / "DECISIONS.md"
FORMS = ("Call", "Expected", "Here", "Because")
CODE = re.compile(r"`([^`]+)`")


def rows(text, head):
    """The rows of the tables with this head: the number of the line, and the cells."""
    inside = False
    for number, line in enumerate(text.splitlines(), 1):
        cells = tuple(it.strip() for it in line.split("|")[1:-1])
        inside = cells == head or inside and bool(cells)
        if inside and cells != head and not line.startswith("|---"):
            yield number, cells


@functools.cache
def public_calls(crate):
    """The public functions of a crate by TYPE::CALL or CALL, each with its signature and what it requires, with blanks
    as one blank."""
    files, handed_out = public_modules(crate)
    types, found = public_types(crate), {}
    for file in sorted((CRATES / crate / "src").rglob("*.rt")):
        for owner, name, lines in blocks(file.read_text()):
            if owner in types or owner is None and (file in files or name in handed_out):
                signature, clauses = signature_and_clauses(lines)
                form = " ".join([signature, *(it for it in clauses if it.startswith("requires"))])
                found[f"{owner}::{name}" if owner else name] = " ".join(form.split())
    return found


def faults_of(name, pieces):
    """What is wrong with a call of a row, whose form has these pieces."""
    crate, _, call = name.partition("::")
    if not (CRATES / crate / "src" / "lib.rt").is_file():
        yield f"there is no crate {crate}"
    elif (form := public_calls(crate).get(call)) is None:
        yield f"{crate} has no public function {call}"
    else:
        yield from (
            f"neither the signature of {name} nor what it requires has '{it}'" for it in pieces if it not in form
        )


def main():
    page.option()
    faults, found = [], list(rows(DECISIONS.read_text(), FORMS))
    for number, cells in found:
        calls, pieces = CODE.findall(cells[0]), CODE.findall(cells[2])
        wrong = [it for call in calls for it in faults_of(call, pieces)] if calls else ["the row names no call"]
        faults += [f"docs/DECISIONS.md:{number}: {it}" for it in wrong]
    faults += [f"docs/DECISIONS.md: no table {' | '.join(FORMS)}"] * (not found)
    page.end(faults, f"docs/DECISIONS.md: {len(found)} rows of calls")


if __name__ == "__main__":
    main()
