"""The crates of the repository, and what each depends on, as crates.txt has them."""

import page


def lines_of(text):
    """Of each crate the words after its name, and those after the colon."""
    found = {}
    for line in text.splitlines():
        head, colon, rest = line.partition("#")[0].partition(":")
        if colon:
            found[head.split()[0]] = (head.split()[1:], rest.split())
    return found


def crates():
    """What each crate depends on, in the order of crates.txt, which has each crate after those that it depends on."""
    return {name: below for name, (_, below) in lines_of((page.TOP / "crates.txt").read_text()).items()}


def product():
    """The crates of the product, lowest first: those before the head of the tests in crates.txt."""
    return list(lines_of((page.TOP / "crates.txt").read_text().partition("\n# tests")[0]))


def below(*names):
    """These crates and all crates of the repository that they depend on, lowest first."""
    known, found = crates(), set(names)
    for it in reversed(known):
        if it in found:
            found |= set(known[it]) & set(known)
    return [it for it in known if it in found]


def above(names):
    """These crates and all that depend on them, lowest first."""
    known, found = crates(), set(names)
    for it, depends_on in known.items():
        if found & set(depends_on):
            found.add(it)
    return [it for it in known if it in found]


def lines_for(names):
    """The lines of crates.txt for these crates alone."""
    lines = (page.TOP / "crates.txt").read_text().splitlines(keepends=True)
    return "".join(line for line in lines if set(lines_of(line)) & set(names))
