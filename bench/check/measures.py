#!/usr/bin/env python3
"""Measures of the house, each of which may only fall: their greatest values are in bench/measures.tsv.

python3 bench/check/measures.py [--list MEASURE] [--write]

Prints the lines of each group of crates and of each folder by kind, with how much of the bodies of its functions lies
in functions with an `ensures`, what else is counted, and the measures. The status is 1 where a measure is above its
greatest value; --write lowers the values, and never raises one. --list names what a measure counts, the greatest first.
A clause's length is that of its text joined over its lines.
"""

import argparse
import collections
import re
import subprocess
import sys

import shared  # noqa: F401

import page
import style
import tower

LIMITS = page.TOP / "bench" / "measures.tsv"
# Characters of a clause, columns of a line of it and of one of a script or in C, lines of a body, and parameters of a
# function.
LONG, WIDE, BROAD, TALL, MANY = 200, 100, 120, 40, 7
# Lines of bodies below which a group may have any share of promises.
SMALL = 1500

CLAUSE = re.compile(r"\s*(?:requires|ensures)\*?\s")
FUNCTION = re.compile(r"(\s*)(?:pub(?:\([^)]*\))? )?(?:const |unsafe |extern \"C\" )*fn (\w+)")
DEFINITION = re.compile(
    r"\s*(?:abbrev|unfoldable|record|data|def|opaque|inductive)\s+(?:pub\s+)?(\S+)|pub (?:record|data) (\S+)"
)
KINDS = ("src", "specs", "proofs", "Python", "C", "shell")
NO_CONTRACT = re.compile(r" (?:ensures|requires)\b")


class Function:
    """A function with a body: where it is, its parameters, the lines of its body, and whether it promises something."""

    def __init__(self, name, head, body):
        self.name, self.body = name, body
        self.parameters = NO_CONTRACT.split(head)[0].split("->")[0]
        self.promises = bool(re.search(r"\sensures\b", head))


def body_begin(lines, at, indent):
    """The line that ends with the bracket of the body of the function whose first line is `at`; None for a function
    without one."""
    for end in range(at, len(lines)):
        line = lines[end].rstrip()
        if (
            line == indent + "{"
            or line.endswith("{") and not CLAUSE.match(line + " ") and (end == at or line.startswith(indent + ")"))
        ):
            return end
        if line.endswith(";"):
            return None
    return None


def functions(lines):
    at = 0
    while at < len(lines):
        found = FUNCTION.match(lines[at])
        begin = body_begin(lines, at, found[1]) if found else None
        if begin is not None:
            end = next((it for it in range(begin, len(lines)) if lines[it].startswith(found[1] + "}")), len(lines) - 1)
            yield Function(found[2], " ".join(lines[at : begin + 1]), max(0, end - begin - 1))
            at = begin
        at += 1


def clauses(lines):
    """The lines of each clause, which ends where its brackets do."""
    at = 0
    while at < len(lines):
        if CLAUSE.match(lines[at]):
            end, depth = at, 0
            while end < len(lines):
                depth += lines[end].count("{") - lines[end].count("}")
                end += 1
                if depth <= 0:
                    break
            yield lines[at:end]
            at = end
        else:
            at += 1


def groups():
    """The crates below each head of crates.txt."""
    head, found = "", {}
    for line in (page.TOP / "crates.txt").read_text().splitlines():
        if line.startswith("# "):
            head = line[2:].partition(":")[0]
        for crate in tower.lines_of(line):
            found[crate] = head
    return found


def sources(crate, part):
    return sorted((page.TOP / "crates" / crate / part).rglob("*.*t"))


def tracked(form):
    listed = subprocess.run(
        ["git", "ls-files", form], cwd=page.TOP, capture_output=True, text=True, check=True
    ).stdout.split()
    return [it for it in listed if (page.TOP / it).is_file()]


class House:
    """All that is measured: of each measure what it counts, with its weight and its place."""

    def __init__(self):
        self.found = collections.defaultdict(list)
        self.lines, self.names = collections.defaultdict(collections.Counter), collections.defaultdict(set)
        self.bodies, self.promised, self.counts = (collections.Counter() for _ in range(3))
        group_of, product = groups(), set(tower.product())
        for crate in tower.crates():
            self.counts["crates"] += 1
            self.crate(crate, group_of[crate], crate in product)
            self.texts(crate, group_of[crate])
        self.add("longest chain of crates", max(self.chains().values()), "")
        self.pages()
        self.scripts()

    def add(self, measure, weight, place):
        self.found[measure].append((weight, place))

    def crate(self, crate, group, is_product):
        for file in sources(crate, "src"):
            lines, name = file.read_text().splitlines(), str(file.relative_to(page.TOP))
            self.lines[group]["src"] += len(lines)
            self.clauses(lines, name)
            if is_product:
                self.add("lines of the longest file", len(lines), name)
                self.functions(lines, name, group)

    def texts(self, crate, group):
        """The definitions and the proofs of a crate."""
        for part in ("specs", "proofs"):
            for file in sources(crate, part):
                lines = file.read_text().splitlines()
                self.lines[group][part] += len(lines)
                for found in map(DEFINITION.match, lines if part == "specs" else ()):
                    if found:
                        self.counts["definitions in specs"] += 1
                        self.names[found[1] or found[2]].add(file)

    def clauses(self, lines, name):
        for clause in clauses(lines):
            self.counts["clauses"] += 1
            text = " ".join(line.strip() for line in clause)
            if len(text) > LONG:
                self.add(f"clauses above {LONG} characters", len(text), f"{name}: {text[:WIDE]}")
            for line in clause:
                if len(line) > WIDE:
                    self.add(f"lines of clauses above {WIDE} columns", len(line), f"{name}: {line.strip()}")

    def functions(self, lines, name, group):
        for it in functions(lines):
            self.counts["functions of the product"] += 1
            self.bodies[group] += it.body
            self.promised[group] += it.body * it.promises
            place = f"{name}: {it.name}"
            if it.body > TALL:
                self.add(f"functions above {TALL} lines", it.body, place)
            if ": bool" in it.parameters:
                self.add("functions with a bool parameter", 1, place)
            if it.parameters.count(": ") >= MANY:
                self.add(f"functions with {MANY} parameters or more", it.parameters.count(": "), place)
        calls = sum("split_line(" in line and not FUNCTION.match(line) for line in lines)
        if calls:
            self.add("calls of split_line", calls, name)

    def chains(self):
        known, found = tower.crates(), {}
        for crate, below in known.items():
            found[crate] = 1 + max((found[it] for it in below if it in found), default=0)
        return found

    def pages(self):
        for name in tracked("*.md"):
            self.add("words of pages", len((page.TOP / name).read_text().split()), name)

    def scripts(self):
        for language, names in style.sources().items():
            for name in names:
                text = (page.TOP / name).read_text()
                folder = name.partition("/")[0]
                self.lines[folder if "/" in name else "other files"][language] += text.count("\n")
                for number, line in enumerate(text.splitlines(), 1):
                    if len(line) > BROAD:
                        self.add(f"lines of {language} above {BROAD} columns", len(line), f"{name}:{number}")
                for lines, place in style.bodies(language, name, text):
                    if lines > TALL:
                        self.add(f"functions in {language} above {TALL} lines", lines, place)

    def table(self):
        """The lines by kind, of each group and of all."""
        yield f"{'lines':45}" + "".join(f"{kind:>8}" for kind in KINDS) + "  of bodies promised"
        rows = {**self.lines, "all": sum(self.lines.values(), collections.Counter())}
        bodies = {**self.bodies, "all": sum(self.bodies.values())}
        promised = {**self.promised, "all": sum(self.promised.values())}
        for group, row in rows.items():
            share = f"{100 * promised[group] // bodies[group]:6} %" if bodies.get(group) else ""
            yield f"{group[:44]:45}" + "".join(f"{row[kind]:8}" for kind in KINDS) + share
        more = sum(len(files) > 1 for files in self.names.values())
        yield ", ".join(f"{count} {name}" for name, count in self.counts.items()) + f", {more} names of several"

    def unpromised(self):
        """Of each group of the product that is not small, its per cent of bodies without a promise."""
        return {f"per cent of bodies without a promise: {group}": 100 - 100 * self.promised[group] // lines
                for group, lines in self.bodies.items() if lines >= SMALL}

    def values(self):
        sums = {"words of pages", "calls of split_line"}
        greatest = {"lines of the longest file", "longest chain of crates"}
        counted = {
            name: sum(weight for weight, _ in found) if name in sums else max(found)[0] if name in greatest else len(
                found
            )
            for name, found in self.found.items()
        }
        return {**counted, **self.unpromised()}


def limits():
    rows = (line.split("\t") for line in LIMITS.read_text().splitlines())
    return {name: int(value) for name, value in rows}


def write(values, known):
    lowest = {name: min(value, known.get(name, value)) for name, value in values.items()}
    LIMITS.write_text("".join(f"{name}\t{value}\n" for name, value in sorted(lowest.items())))


def main():
    parser = argparse.ArgumentParser(description="Measures of the house, each of which may only fall.")
    parser.add_argument("--list", metavar="MEASURE", help="what a measure counts, the greatest first")
    parser.add_argument("--write", action="store_true", help="lower the greatest values, and raise none")
    given = parser.parse_args()
    house = House()
    values, known = house.values(), limits() if LIMITS.exists() else {}
    if given.list:
        for weight, place in sorted(house.found[given.list], reverse=True):
            print(f"{weight:6} {place}")
        return
    if given.write:
        write(values, known)
        known = limits()
    print(*house.table(), sep="\n")
    above = [name for name, value in values.items() if value > known.get(name, 0)]
    for name, value in sorted(values.items()):
        print(f"{value:7} of at most {known.get(name, 0)}  {name}" + ("  ABOVE" if name in above else ""))
    sys.exit(f"measures: above their greatest values: {', '.join(above)}" if above else 0)


if __name__ == "__main__":
    main()
