#!/usr/bin/env python3
"""Compares each place that has the statuses of the library with the one table of them: the enums of its headers.

python3 bench/check/statuses.py

A refusal NO_CPU of the headers is NoCpu elsewhere. The code and the definitions of postmig_c have the numbers too,
since a contract speaks of them, and so has the Python package. The status is 1 where a place has another number, or a
name that the headers have not, or lacks one.
"""

import ast
import re

import shared  # noqa: F401

import page

CRATE, CALLS = page.TOP / "crates" / "postmig_c", page.TOP / "python" / "postmig" / "calls.py"
HEADERS = [CRATE / "include" / name for name in ("postmig.h", "postmig_node.h")]
ENUM = re.compile(r"^enum \{((?:(?!^\}).)*?POSTMIG_(?:OK|NOT_A_FRAME) = .*?)^\};", re.M | re.S)
ENTRY = re.compile(r"\bPOSTMIG_(\w+) = (\d+)")
CONSTANT = re.compile(r"^pub const (\w+): u32 = (\d+);", re.M)
# An arm of a function, a clause of a definition, and the cases of a definition of names.
FORMS = {
    "src/refusals.rt": (r"(Refusal|FrameFault)::(\w+) => (\w+),", r'^        (\d+) => "(\w+)",'),
    "specs/Refusals.antt": (r"(Refusal|FrameFault)\.(\w+) = (\w+)$", r'if status == (\d+) then codes "(\w+)"'),
}


def table():
    """The statuses by their names: answers of a call, and refusals."""
    found = {}
    for header in HEADERS:
        for body in ENUM.findall(header.read_text()):
            found |= {name: int(number) for name, number in ENTRY.findall(body)}
    refusals = {name[8:].title().replace("_", ""): it for name, it in found.items() if name.startswith("REFUSED_")}
    return {name: it for name, it in found.items() if not name.startswith("REFUSED_")}, refusals


def differing(place, given, wanted):
    for name in sorted(given.keys() | wanted.keys()):
        if given.get(name) != wanted.get(name):
            yield f"{place}: {name}: {given.get(name)}, and in the headers {wanted.get(name)}"


def of_crate(answers, refusals):
    """What differs in postmig_c, whose refusals are those of two types; lack of memory is the answer of that name."""
    constants = {name: int(number) for name, number in CONSTANT.findall((CRATE / "src" / "status.rt").read_text())}
    wanted = {"DONE" if name == "OK" else name: it for name, it in answers.items() if name != "REFUSED"}
    yield from differing("postmig_c/src/status.rt", constants, wanted)
    refusals = {**refusals, "NoMemory": answers["NO_MEMORY"], "NotAFrame": answers["NOT_A_FRAME"]}
    for place, (arm, name) in FORMS.items():
        text = (CRATE / place).read_text()
        arms = re.findall(arm, text, re.M)
        numbers = {it: constants[word] if word in constants else int(word) for _, it, word in arms}
        yield from differing(f"postmig_c/{place}", numbers, refusals)
        if len(arms) != len(set(arms)) or {it[0] for it in arms} != {"Refusal", "FrameFault"}:
            yield f"postmig_c/{place}: its arms are not those of two functions"
        names = {it: int(number) for number, it in re.findall(name, text, re.M)}
        named = {it: number for it, number in refusals.items() if number > answers["REFUSED"]}
        yield from differing(f"names of postmig_c/{place}", names, named)


def of_python(answers):
    """What differs in the Python package, which asks the library for the names of refusals."""
    found = {}
    for node in ast.parse(CALLS.read_text()).body:
        if isinstance(node, ast.Assign) and isinstance(node.targets[0], ast.Tuple):
            names, text = [it.id for it in node.targets[0].elts], ast.unparse(node.value)
            if answers.keys() & set(names):
                value = range(int(text[6:-1])) if text.startswith("range(") else ast.literal_eval(text)
                found |= {name: it for name, it in zip(names, value) if name in answers}
    return differing("python/postmig/calls.py", found, answers)


def main():
    page.option()
    answers, refusals = table()
    faults = [*of_crate(answers, refusals), *of_python(answers)]
    page.end(faults, f"{len(answers) - 1} answers and {len(refusals)} refusals of the library")


if __name__ == "__main__":
    main()
