#!/usr/bin/env python3
"""Lists the files of lemmas of mig_model, mig_laws and page_stream, each with the first sentence of its head.

python3 bench/check/lemmas.py [--write]

With --write the list goes to dist/LEMMAS.md. The status is 1 where a file has no sentence at its head.
"""

import re

import shared  # noqa: F401

import page

CRATES = page.TOP / "crates"
CRATES_OF_LEMMAS = ("mig_model", "mig_laws", "page_stream")


def head_of(file):
    """The first sentence of the comment at the head of a file."""
    words = []
    for line in file.read_text().splitlines():
        if not line.startswith("--"):
            break
        words += line[2:].split()
    return re.split(r"(?<=\.) (?=[A-Z])", " ".join(words))[0]


def files(crate):
    """The files of lemmas of a crate and of its folders of lemmas. A folder has a file of its name beside it."""
    proofs = CRATES / crate / "proofs"
    at_the_top = [it for it in proofs.glob("*.antt") if it.stem != "Lib"]
    in_folders = [it for beside in at_the_top for it in beside.with_suffix("").glob("*.antt")]
    return sorted(at_the_top + in_folders)


def listed():
    """The text of the list."""
    yield "# The files of lemmas\n"
    yield "They lead from the definitions of the model to its laws. `./dev pages` writes this page.\n"
    for crate in CRATES_OF_LEMMAS:
        yield f"## `{crate}`\n\n| File | What it shows |\n|---|---|"
        yield from (f"| [{it.stem}](../{it.relative_to(page.TOP)}) | {head_of(it)} |" for it in files(crate))
        yield ""


def write():
    page.write("LEMMAS.md", "\n".join(listed()))


def main():
    if page.option("--write"):
        write()
    every = [it for crate in CRATES_OF_LEMMAS for it in files(crate)]
    faults = [f"{it.relative_to(page.TOP)}: no sentence at its head" for it in every if not head_of(it)]
    page.end(faults, f"files of lemmas: {len(every)}")


if __name__ == "__main__":
    main()
