#!/usr/bin/env python3
"""Counts, promise by promise, the definitions that a reader must believe: those that its contract names, and those
that these name in turn.

python3 bench/check/definitions.py [--write | --check | --list PROMISE]

All other definitions serve proofs. So does the table with the enums and structs of the code that these definitions
name. Lines are without comments. With --write the table goes to docs/DESIGN.md, with --check the status is 1 where that
page has another table. --list prints the definitions of one promise, by its first word, in the order in which to read
them, and then the enums and structs.
"""

import collections
import functools
import re
import sys

import shared  # noqa: F401

import page
from tower import product

CRATES = page.TOP / "crates"
DESIGN = page.TOP / "docs" / "DESIGN.md"
DECLARED = re.compile(r"^\s*(?:ghost )?use Rattle\.(\w+)\.specs\.declared\.([\w.]+?)(?:\.\{([^}]*)\}| as (\w+));?\s*$")
TYPE = re.compile(r"^pub (?:enum|struct) (\w+)[^;{]*(?:;|\{\n(?:.*\n)*?\}$)", re.M)
USE = re.compile(r"^\s*(?:ghost )?use Rattle\.(\w+)\.specs\.(\w+)(?:\.\{([^}]*)\}| as (\w+))?;?\s*$")
STARTS = ("abbrev ", "unfoldable ", "record ", "data ", "pub record ", "pub data ", "pub ")

# What each row of the table promises, and the definitions or the public calls by which it does so.
PROMISES = (
    (
        (
            "`Core`: the transcript of a world is the run of one flat memory, and completion means that the "
            "destination alone holds it"
        ),
        ["world/Core/Core"],
    ),
    (
        (
            "`CoreFirst` and `CoreStep`: the same of a new world and after each step; a processor gets the reply of "
            "its entry; "
            "nothing is installed over a present page; complete stays complete"
        ),
        ["world/Core/CoreFirst", "world/Core/CoreStep"],
    ),
    ("`Headline`: all promises for every world, owed pages on their way among them", ["world/Headline/Headline"]),
    ("`check_script`: `postmig check`", ["engine::check_script"]),
    ("`run_script`: `postmig run`", ["engine::run_script"]),
    ("`two_drivers_are_a_world`: the headline of a driver", ["mig_laws::two_drivers_are_a_world"]),
    ("`certify`: a run of a log is one by the rules of a kernel", ["kernel_rules::certify"]),
)
# Others, which --list takes too.
OTHERS = (
    ("`step` of a world, with all that the machine says of a step", ["world::step"]),
    ("`finish`: `postmig finish` completes a migration", ["finish::finish"]),
    ("`feed` of a decoder: the bytes of frames", ["frame_decoder::feed"]),
    ("`run_threads`: `postmig threads`", ["threads::run_threads"]),
)


def names(word, text):
    return re.search(r"(?<![\w'.-])" + re.escape(word) + r"(?![\w'-])", text)


def imports(text):
    """The words that a file uses of definitions, each with its crate and its file: (word as it is written here, crate,
    file, word there)."""
    for line in text.splitlines():
        found = USE.match(line)
        if not found or not (CRATES / found[1] / "specs" / f"{found[2]}.antt").exists():
            continue
        for word in filter(None, map(str.strip, (found[3] or "").split(","))):
            there, _, here = word.partition(" as ")
            yield here or there, found[1], found[2], there
        if found[4]:
            for word in set(re.findall(rf"\b{found[4]}\.(\w+)", text)):
                yield f"{found[4]}.{word}", found[1], found[2], word


def contracts(text, call=r"\w+"):
    """The contracts of public functions, or of one of them, of public traits and of iterators, and the types that
    callers see."""
    inside = in_trait = False
    for line in text.splitlines():
        in_trait = line.startswith("pub trait ") or in_trait and not line.startswith("}")
        if re.match(rf'\s*pub (const )?(extern "C" )?fn {call}\b', line):
            inside = True
        every = (
            call == r"\w+"
            and (in_trait and not line.lstrip().startswith("//") or "ghost Value" in line or "ghost next_gives" in line)
        )
        if inside or every:
            # (a clause may have a name of its own, which is not a definition)
            yield re.sub(r"\b(requires|ensures) \w+ \{", "{", line)
        if re.match(r"\s*\{\}?\s*$", line) or line.endswith(" {}"):
            inside = False


@functools.cache
def file_of(crate, file):
    return (CRATES / crate / "specs" / f"{file}.antt").read_text()


def definitions(text):
    """The definitions of a file: the text of each without comments, by its name."""
    found, name = collections.defaultdict(str), None
    for line in text.splitlines():
        if line.startswith(STARTS) and not line.startswith("use "):
            words = [
                it for it in re.split(r"[\s:(]+", line) if it not in ("abbrev", "unfoldable", "record", "data", "pub")
            ]
            name = words[0]
        if name and line.strip() and not line.lstrip().startswith("--"):
            found[name] += line + "\n"
    return found


@functools.cache
def definitions_of(crate, file):
    return dict(definitions(file_of(crate, file)))


def named_by(crate, call):
    """The definitions that the contract of a public function names."""
    for file in sorted((CRATES / crate / "src").rglob("*.rt")):
        text = file.read_text()
        said = "\n".join(contracts(text, call))
        yield from (it[1:] for it in imports(text) if names(it[0], said))


def roots(promise):
    """The definitions that a promise names: itself, or those of a call."""
    if "::" in promise:
        return list(named_by(*promise.split("::")))
    return [tuple(promise.split("/"))]


def closure(waiting):
    """These definitions and all that they name in turn, each as (crate, file, name)."""
    waiting, seen = list(waiting), set()
    while waiting:
        crate, file, name = at = waiting.pop()
        if at in seen:
            continue
        own = definitions_of(crate, file)
        if name not in own:
            continue
        seen.add(at)
        waiting += [(crate, file, other) for other in own if other != name and names(other, own[name])]
        waiting += [it[1:] for it in imports(file_of(crate, file)) if names(it[0], own[name])]
    return seen


@functools.cache
def types_in(crate):
    """The enums and structs of a crate's code that others see: the text of each without comments and attributes, by its
    name."""
    texts = (file.read_text() for file in sorted((CRATES / crate / "src").rglob("*.rt")))
    found = [it for text in texts for it in TYPE.finditer(text)]
    return {
        it[1]: "\n".join(line for line in it[0].splitlines() if not line.lstrip().startswith(("//", "#")))
        for it in found
    }


def declared(text):
    """The words that a file uses of types of the code: (word as it is written here, crate, type)."""
    for line in text.splitlines():
        if found := DECLARED.match(line):
            path = [it for it in found[2].split(".") if it != "TheVariants"]
            for word in filter(None, map(str.strip, (found[3] or "").split(","))):
                yield word.rpartition(" as ")[2], found[1], path[-1]
            if found[4]:
                yield found[4], found[1], path[-1]


def types_of(found):
    """The enums and structs of the code that definitions name, and those that these name in turn, each as (crate,
    type)."""
    waiting = [
        it[1:]
        for crate, file, name in found
        for it in declared(file_of(crate, file))
        if names(it[0], definitions_of(crate, file)[name])
    ]
    seen = set()
    while waiting:
        crate, name = at = waiting.pop()
        own = types_in(crate)
        if at not in seen and name in own:
            seen.add(at)
            waiting += [(crate, other) for other in own if other != name and names(other, own[name])]
    return seen


def lines_in(found):
    return sum(len(definitions_of(crate, file)[name].splitlines()) for crate, file, name in found)


def in_order(found):
    """The files of definitions in the order in which to read them, lowest crate first, with the number of definitions
    in each."""
    count = collections.Counter((crate, file) for crate, file, _ in found)
    return [
        (crate, sorted((file, count[crate, file]) for at, file in count if at == crate))
        for crate in product()
        if any(at == crate for at, _ in count)
    ]


def row(label, found):
    order = ", ".join(f"{crate} {sum(count for _, count in files)}" for crate, files in in_order(found))
    types = types_of(found)
    type_lines = sum(len(types_in(crate)[name].splitlines()) for crate, name in types)
    return f"| {label} | {len(found):,} | {lines_in(found):,} | {len(types):,} | {type_lines:,} | {order} |"


def everything():
    return closure(it for crate in product() for it in named_by(crate, r"\w+"))


def table():
    rows = [
        "| Promise | Definitions | Lines | Enums and structs of the code | Lines | `specs/` to read, in this order |",
        "|---|---|---|---|---|---|",
    ]
    rows += [row(label, closure(it for promise in promises for it in roots(promise))) for label, promises in PROMISES]
    whole = everything()
    rows.append(row("all public calls of all crates", whole).rpartition(" | ")[0] + " | all |")
    return "\n".join(rows)


def list_one(word):
    for label, promises in PROMISES + OTHERS:
        if word in re.findall(r"\w+", label)[:2]:
            found = closure(it for promise in promises for it in roots(promise))
            for crate, files in in_order(found):
                for file, _ in files:
                    print(
                        f"crates/{crate}/specs/{file}.antt: " + ", ".join(
                            name for name in definitions_of(crate, file) if (crate, file, name) in found
                        )
                    )
            for crate in product():
                if types := sorted(name for at, name in types_of(found) if at == crate):
                    print(f"crates/{crate}/src: " + ", ".join(types))
            return
    sys.exit(f"definitions: no promise {word}")


def main():
    part, words = "what has to be believed", sys.argv[1:]
    if words[:1] == ["--list"] and len(words) == 2:
        return list_one(words[1])
    text = table()
    if words == ["--check"]:
        stands = DESIGN.read_text()
        if page.replaced(stands, part, text, DESIGN) != stands:
            raise SystemExit(
                "docs/DESIGN.md: what has to be believed is not as 'python3 bench/check/definitions.py --write' makes "
                "it"
            )
        return
    print(text)
    if words == ["--write"]:
        page.put(part, text, DESIGN)


if __name__ == "__main__":
    main()
