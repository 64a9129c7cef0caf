#!/usr/bin/env python3
"""Checks that each contract which docs/PROVED.md names is in the sources, and lists the contracts of all public calls.

python3 bench/check/proved.py [--write]

With --write the list goes to dist/CONTRACTS.md: of each public call its first sentence and its clauses.
A section of that page with a crate's name has the rows of that crate; in other sections the first column of a row
names its crate, or is empty where it is that of the row above. Each crate of the product but the program itself has a
row. In the last column a name is CALL, TYPE::CALL or MODULE::CALL, with .CLAUSE after it where one clause carries the
promise. A name without a type or module has that of the name before it in the same cell. 'each call of NAME' is the
public calls of a type or a module. The status is 1 where the crate has no such function, the function no such clause,
or no clause at all.
"""

import re

import shared  # noqa: F401

import page
import tower
from refusals_table import public_modules, public_types

CRATES = page.TOP / "crates"
PROVED = page.TOP / "docs" / "PROVED.md"
FN = re.compile(r'\s*(pub(?:\(crate\))? )?(?:const )?(?:extern "C" )?fn (\w+)')
CLAUSE = re.compile(r"\s*ensures\*?(?: (\w+))? \{")
IMPL = re.compile(r"impl(?:<[^{]*>)? (?:.* for )?(\w+)")
NAME = re.compile(r"`(?:(\w+)::)?(\w+)(?:\.(\w+))?`")


def functions(crate):
    """A crate's functions: (module, type or '', name, whether public, names of clauses, the sentence above it)."""
    found = []
    for file in sorted((CRATES / crate / "src").rglob("*.rt")):
        owner, open_fn, comment = "", None, []
        for line in file.read_text().splitlines():
            if line.startswith("impl"):
                owner = IMPL.match(line)[1]
            elif line == "}":
                owner = ""
            if at := FN.match(line):
                sentence = re.split(r"(?<=\.) (?=[A-Z])", " ".join(comment))[0]
                open_fn = (file.stem, owner, at[2], at[1] == "pub ", [], sentence)
                found.append(open_fn)
            elif open_fn and (at := CLAUSE.match(line)):
                open_fn[4].append(at[1] or "")
            if line.strip().startswith("///"):
                comment += line.strip()[3:].split()
            elif not line.strip().startswith("#["):
                comment = []
    return found


def listed():
    """The text of the list."""
    yield "# The contract of each public call\n"
    yield "`./dev pages` writes this page. docs/PROVED.md explains it.\n"
    for crate in (it for it in tower.product() if (CRATES / it / "src" / "lib.rt").is_file()):
        yield f"## `{crate}`\n\n| Call | What it does | Clauses |\n|---|---|---|"
        files, handed_out = public_modules(crate)
        open_modules, types = {it.stem for it in files}, public_types(crate)
        for module, owner, name, is_public, clauses, sentence in functions(crate):
            is_call = module in open_modules or name in handed_out or name.startswith("postmig_")
            if is_public and clauses and (owner in types if owner else is_call):
                sentence = sentence.replace("|", "\\|")
                yield f"| `{owner or module}::{name}` | {sentence} | {', '.join(f'`{it}`' for it in clauses if it)} |"
        yield ""


def write():
    page.write("CONTRACTS.md", "\n".join(listed()))


def promises():
    """The cells of the page that name contracts, each with its crate and the number of its line."""
    crate = head = None
    for number, line in enumerate(PROVED.read_text().splitlines(), 1):
        cells = line.strip("| ").split(" | ") if line.startswith("| ") else []
        if line.startswith("#"):
            crate = line.strip("#` ") if "`" in line else None
        elif cells and cells[-1] == "Contract":
            head = cells
        elif cells:
            if head[0] == "Crate" and not line.startswith("| | "):
                crate = cells[0].strip("`")
            yield crate, number, cells[-1]


def faults_of(cell, known):
    """What is wrong with a cell, by the functions of its crate."""
    for whole in re.findall(r"each call of `(\w+)`", cell):
        calls = [it for it in known if whole == (it[1] or it[0]) and it[3]]
        if not calls:
            yield f"{whole} has no public call"
        yield from (f"{whole}::{it[2]} has no clause" for it in calls if not it[4])
    names = NAME.findall(re.sub(r"each call of `\w+`", "", cell))
    if not names and "each call of" not in cell:
        yield "names no contract"
    owner = ""
    for given, name, clause in names:
        owner = given or owner
        found = [it for it in known if it[2] == name and (owner in (it[1], it[0]) if owner else not it[1])]
        if not found:
            yield f"no {owner + '::' if owner else ''}{name}"
        elif clause and not any(clause in it[4] for it in found):
            yield f"{name} has no clause {clause}"
        elif not any(it[4] for it in found):
            yield f"{name} has no contract"


def main():
    if page.option("--write"):
        write()
    faults, known, count = [], {}, 0
    product = tower.product()
    for crate, number, cell in promises():
        at = f"docs/PROVED.md:{number}: {crate}: "
        if crate not in known:
            known[crate] = functions(crate) if crate in product else []
            faults += [] if crate in product else [at + "no crate of the product"]
        faults += [at + it for it in faults_of(cell, known[crate])]
        count += 1
    faults += [f"docs/PROVED.md: no row for {crate}" for crate in product if crate not in known and crate != "postmig"]
    page.end(faults, f"docs/PROVED.md: {count} promises")


if __name__ == "__main__":
    main()
