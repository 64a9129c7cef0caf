#!/usr/bin/env python3
"""Whether the checklists of CONTRIBUTING.md name each place where their example occurs.

python3 bench/check/checklists.py

A checklist begins with its name and a grep, whose source files are its places; scripts, cases and pages are none. A
file of a crate is named by its crate, another by its own name or a folder that it is in. The status is 1 where a place
is not named.
"""

import pathlib
import re
import shlex
import subprocess

import shared  # noqa: F401

import page

PAGE = page.TOP / "CONTRIBUTING.md"
BEGIN = re.compile(r"\*\*(?P<name>[^*]+)\*\*.*?: `(?P<grep>grep [^`]+)`")
WORD = re.compile(r"\w+")
SOURCES = {".rt", ".antt", ".py", ".c", ".h", ".txt"}


def checklists(lines):
    """Of each checklist its name, its grep and its words: the lines up to the next one, or to the next head."""
    found = []
    for line in lines:
        begins = BEGIN.match(line)
        if begins:
            found.append([begins["name"], begins["grep"], line.replace(begins["grep"], "")])
        elif line.startswith("#") or line.startswith("**"):
            found.append(None)
        elif found and found[-1]:
            found[-1][2] += "\n" + line
    return [it for it in found if it]


def tracked():
    listed = subprocess.run(["git", "ls-files"], cwd=page.TOP, capture_output=True, text=True, check=True)
    return set(listed.stdout.splitlines())


def places(grep, known):
    printed = subprocess.run(shlex.split(grep), cwd=page.TOP, capture_output=True, text=True)
    return sorted(it for it in set(printed.stdout.splitlines()) & known if pathlib.PurePath(it).suffix in SOURCES)


def names_of(place):
    """The words by which a checklist may name a file: not the folders at the top, which have everything."""
    path = pathlib.PurePath(place)
    if path.parts[0] == "crates":
        return {path.parts[1]}
    return {path.stem, *path.parts[1:-1]} - {"check", "compare", "replay", "tests"}


def main():
    page.option()
    found, faults, count = checklists(PAGE.read_text().splitlines()), [], 0
    known = tracked()
    for name, grep, text in found:
        words, at = set(WORD.findall(text)), places(grep, known)
        count += len(at)
        faults += [f"CONTRIBUTING.md: {name}: the grep finds nothing"] * (not at)
        faults += [f"CONTRIBUTING.md: {name}: does not name {place}" for place in at if not names_of(place) & words]
    faults += ["CONTRIBUTING.md has no checklist"] * (not found)
    page.end(faults, f"{len(found)} checklists, {count} places")


if __name__ == "__main__":
    main()
