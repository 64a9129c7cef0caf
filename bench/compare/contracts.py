#!/usr/bin/env python3
"""Prints in what the public contracts of two revisions differ.

python3 bench/compare/contracts.py [--definitions] BEFORE [AFTER]

AFTER is the working tree where it is not given. The signature and the clauses of each public function are compared,
with blanks as one blank, but those of crates of tests, under its crate and its type: a function that moves to another
file of its crate does not differ. With --definitions those of specs/ are compared in the same way, without comments.
The status is 0 whether or not something differs.
"""

import argparse
import difflib
import re
import subprocess
import sys

import shared  # noqa: F401

import page

PUBLIC = re.compile(r'\s*pub (?:const )?(?:extern "C" )?fn (\w+)')
IMPL = re.compile(r"impl(?:<[^{]*?>)? (?:[\w:<>', ]+ for )?(\w+)")
DEFINITION = re.compile(r"(?:pub |abbrev |unfoldable |record |data )+([^\s:(]+)")


def texts(revision, pattern):
    """The files of a revision, or of the working tree, whose paths match: pairs of path and text."""
    if revision is None:
        for file in sorted((page.TOP / "crates").rglob("*")):
            path = str(file.relative_to(page.TOP))
            if re.fullmatch(pattern, path) and file.is_file():
                yield path, file.read_text()
        return
    ran = subprocess.run(
        ["git", "ls-tree", "-r", "--name-only", revision, "crates"], cwd=page.TOP, capture_output=True, text=True
    )
    if ran.returncode:
        sys.exit(f"contracts: {ran.stderr.strip()}")
    for path in filter(lambda it: re.fullmatch(pattern, it), ran.stdout.splitlines()):
        shown = subprocess.run(
            ["git", "show", f"{revision}:{path}"], cwd=page.TOP, check=True, capture_output=True, text=True
        )
        yield path, shown.stdout


def contracts(revision):
    """The signature and the clauses of each public function, by its crate, type and name."""
    found = {}
    for path, text in texts(revision, r"crates/(?!\w+_tests/)\w+/src/.*\.rt"):
        owner, name = "", None
        for line in text.splitlines():
            if begins := IMPL.match(line):
                owner = begins[1] + "::"
            elif line == "}":
                owner = ""
            if public := PUBLIC.match(line):
                name = f"{path.split('/')[1]}::{owner}{public[1]}"
                found[name] = ""
            if name:
                found[name] += " " + line
                is_signature = not re.search(r" (requires|ensures)\b", found[name])
                if (
                    re.fullmatch(r"\s*\{\}?", line)
                    or line.endswith(" {}")
                    or is_signature and line.endswith((" {", ";"))
                ):
                    name = None
    return {name: " ".join(text.split()) for name, text in found.items()}


def definitions(revision):
    """The text of each definition, by its crate, file and name."""
    found = {}
    for path, text in texts(revision, r"crates/\w+/specs/.*\.antt"):
        name = None
        for line in text.splitlines():
            if begins := DEFINITION.match(line):
                name = f"{path.split('/')[1]}/{path.split('/')[-1].removesuffix('.antt')}/{begins[1]}"
            if name and line.strip() and not line.startswith(("use ", "--")):
                found[name] = f"{found.get(name, '')} {line}"
    return {name: " ".join(text.split()) for name, text in found.items()}


def clauses(text):
    """A contract with a clause a line, so that a difference is seen at its clause."""
    return re.sub(r" (requires|ensures|pub \w+ :) ?", r"\n    \1 ", text).splitlines()


def main():
    parser = argparse.ArgumentParser(description=__doc__.partition("\n")[0])
    parser.add_argument("--definitions", action="store_true")
    parser.add_argument("before")
    parser.add_argument("after", nargs="?")
    given = parser.parse_args()
    read = definitions if given.definitions else contracts
    before, after = read(given.before), read(given.after)
    changed = [it for it in sorted(before.keys() & after.keys()) if before[it] != after[it]]
    for name in sorted(before.keys() - after.keys()):
        print(f"- {name}")
    for name in sorted(after.keys() - before.keys()):
        print(f"+ {name}")
    for name in changed:
        print(f"! {name}")
        lines = difflib.unified_diff(clauses(before[name]), clauses(after[name]), lineterm="", n=0)
        print(*(f"    {it}" for it in lines if not it.startswith(("---", "+++", "@@"))), sep="\n")
    gone, new = len(before.keys() - after.keys()), len(after.keys() - before.keys())
    print(f"contracts: {len(before)} before, {len(after)} after: {gone} gone, {new} new, {len(changed)} changed")


if __name__ == "__main__":
    main()
