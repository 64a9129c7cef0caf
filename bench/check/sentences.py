#!/usr/bin/env python3
"""Lists the definitions and the public functions that have no sentence above them.

python3 bench/check/sentences.py [CRATE ..]

Of each file of specs/ it reads every definition at the left margin, of each file of src/ of the product every `pub fn`.
A comment above a definition's attribute counts. With crates it reads these alone. The status is 1 where one has none.
"""

import re
import sys

import shared  # noqa: F401

import page
import tower

CRATES = page.TOP / "crates"
DEFINITION = re.compile(r"^(?:(?:abbrev|unfoldable) (?:pub )?|pub )(?:rec |data |record |pub )*([^\s:]+)")
FUNCTION = re.compile(r"^\s*pub (?:const |unsafe )*fn (\w+)")


def unsaid(text, pattern, comment, skipped):
    """The names that a pattern finds in a text whose line above is no comment, each with its line's number."""
    above = ""
    for number, line in enumerate(text.splitlines(), 1):
        found = pattern.match(line)
        if found and not line.startswith(("pub mod ", "pub use ")) and not above.startswith(comment):
            yield number, found[1]
        if not line.strip().startswith(skipped):
            above = line.strip()


def main():
    faults, product = [], tower.product()
    unknown = [it for it in sys.argv[1:] if not (CRATES / it).is_dir()]
    if unknown:
        sys.exit(f"sentences: there is no crate {unknown[0]}")
    for crate in sys.argv[1:] or sorted(path.name for path in CRATES.iterdir()):
        looked_at = [(file, DEFINITION, "--", "{-#") for file in sorted((CRATES / crate / "specs").glob("*.antt"))]
        if crate in product:
            looked_at += [(file, FUNCTION, "///", "#[") for file in sorted((CRATES / crate / "src").rglob("*.rt"))]
        for file, *how in looked_at:
            faults += [
                f"{file.relative_to(CRATES)}:{number}: {name}" for number, name in unsaid(file.read_text(), *how)
            ]
    page.end(faults, "sentences")


if __name__ == "__main__":
    main()
