#!/usr/bin/env python3
"""Checks that the links of the pages lead somewhere.

python3 bench/check/links.py

Of each *.md at the top and in docs/, and of the pages of bench/, conformance/, audit/, history/ and live/: a relative
link names a file that is there, and after # a heading of it. A link whose text is the name of a function and which
leads to a source file finds that function there. The status is 1 where one does not.
"""

import functools
import re

import shared  # noqa: F401

import page

LINK = re.compile(r"\[([^\]]*)\]\(([^)\s]+)\)")


def pages():
    others = [page.TOP / folder / "README.md" for folder in ("bench", "conformance", "audit", "history", "live")]
    return [
        *sorted(page.TOP.glob("*.md")), *sorted((page.TOP / "docs").glob("*.md")), *others,
        page.TOP / "live" / "OPERATION.md",
    ]


@functools.lru_cache(maxsize=None)
def anchors(file):
    """The anchors of a page's headings, as a forge makes them."""
    text = re.sub(r"^```.*?^```", "", file.read_text(), flags=re.M | re.S)
    heads = re.findall(r"^#+ (.*)$", text, flags=re.M)
    return {re.sub(r"[^\w\- ]", "", head.lower()).strip().replace(" ", "-") for head in heads}


def fault(file, text, target):
    """What is wrong with a link, if anything."""
    if re.match(r"[a-z]+:", target):
        return None
    name, _, anchor = target.partition("#")
    there = (file.parent / name).resolve() if name else file
    if not there.exists():
        return f"no file {name}"
    if anchor and anchor not in anchors(there):
        return f"no heading #{anchor} in {there.name}"
    function = re.fullmatch(r"`(?:\w+::)?(\w+)`", text)
    if function and there.suffix == ".rt" and not re.search(rf"\bfn {function[1]}\b", there.read_text()):
        return f"no function {function[1]} in {name}"
    return None


def main():
    page.option()
    faults, count = [], 0
    for file in pages():
        for number, line in enumerate(file.read_text().splitlines(), 1):
            for text, target in LINK.findall(line):
                count += 1
                if wrong := fault(file, text, target):
                    faults.append(f"{file.relative_to(page.TOP)}:{number}: {wrong}")
    page.end(faults, f"links: {count} in {len(pages())} pages")


if __name__ == "__main__":
    main()
