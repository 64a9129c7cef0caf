#!/usr/bin/env python3
"""Runs random scripts twice, once with their contents changed, and compares the output.

python3 bench/compare/contents.py [SEEDS] [--first SEED] [--lines N] [--program PATH]

For each seed from SEED on (1), SEEDS of them (20), and for each profile of `postmig explore`, three maps of bytes that
keep 0 change the value of each store of a right form: a permutation, a random map, and the one that takes every byte to
0. By the laws of `mig_laws` the output may differ in the values of loads alone, which are changed by the same map, and
a page may be a zero where the map takes another byte to 0. For such a map each delivery with a number of bytes delivers
4112 at least; for the others the script stays as it is. The status is 1 where a line differs otherwise.
"""

import argparse
import collections
import random
import re
import sys

import shared  # noqa: F401

from program import PROFILES, PROGRAM, written

# The bytes that complete a Page.
PAGE_LEN = 4112
STORE = re.compile(r"(cpu \d+ store) (\S+) (\d+) (\S+)")
DELIVERY = re.compile(r"(deliver|back|udeliver) (\d+)")
VALUE = re.compile(r"(?<=value )0x[0-9a-f]+")
WORD = re.compile(r"(sent|took) (page|zero) ")


def changed(table, number):
    """A number of 64 bits whose bytes are changed."""
    return int.from_bytes(bytes(table[it] for it in number.to_bytes(8, "little")), "little")


def changed_line(table, line):
    """A line of a script: the value of a store of a right form is changed."""
    if not (at := STORE.fullmatch(line)):
        return line
    addr, width, value = int(at[2], 0), int(at[3]), int(at[4], 0)
    if width not in (1, 2, 4, 8) or addr % width or value >= 256**width:
        return line
    return f"{at[1]} {at[2]} {at[3]} {changed(table, value):#x}"


def whole(line):
    """A line of a script: a delivery ends inside no Page."""
    at = DELIVERY.fullmatch(line)
    return f"{at[1]} {max(int(at[2]), PAGE_LEN)}" if at else line


def maps(draw):
    """Maps of bytes that keep 0, each with whether it takes no other byte to 0."""
    others = draw.sample(range(1, 256), 255)
    yield "permutation", [0, *others], True
    yield "any", [0, *(draw.randrange(256) if draw.randrange(4) else 0 for _ in range(255))], False
    yield "zeros", [0] * 256, False


def compare(name, table, kept, old, new, counts):
    """Raises ValueError unless the lines of the second output are those of the first, changed."""
    if len(old) != len(new):
        raise ValueError(f"{name}: {len(old)} lines, and {len(new)} with changed contents")
    for number, (one, other) in enumerate(zip(old, new), 1):
        wanted = VALUE.sub(lambda at: f"{changed(table, int(at[0], 16)):#x}", one)
        counts["values"] += bool(VALUE.search(one))
        if wanted != other and not kept and WORD.sub(r"\1 zero ", one) == other:
            counts["pages that became zeros"] += 1
        elif wanted != other:
            raise ValueError(f"{name}: line {number}: '{one}', and with changed contents '{other}'")
    counts["lines"] += len(old)


def judge(program, seed, profile, count, counts):
    cpus = str((1, 2, 4, 16)[seed % 4])
    text = written(
        [program, "explore", "--seed", str(seed), "--lines", str(count), "--profile", profile, "--cpus", cpus]
    )
    for name, table, kept in maps(random.Random(seed)):
        lines = [it if kept else whole(it) for it in text.decode().splitlines()]
        scripts = lines, [changed_line(table, it) for it in lines]
        outputs = (
            written([program, "run", "--cpus", cpus], "".join(f"{it}\n" for it in script).encode())
            for script in scripts
        )
        compare(f"{profile} {seed} {name}", table, kept, *(it.decode().splitlines() for it in outputs), counts)
        counts["stores"] += sum(one != other for one, other in zip(*scripts))
        counts["pairs of runs"] += 1


def main():
    parser = argparse.ArgumentParser()
    parser.add_argument("seeds", nargs="?", type=int, default=20)
    parser.add_argument("--first", type=int, default=1)
    parser.add_argument("--lines", type=int, default=300)
    parser.add_argument("--program", default=str(PROGRAM))
    given = parser.parse_args()
    counts = collections.Counter()
    for seed in range(given.first, given.first + given.seeds):
        for profile in PROFILES:
            judge(given.program, seed, profile, given.lines, counts)
    print(
        ", ".join(
            f"{counts[it]} {it}" for it in ("pairs of runs", "lines", "stores", "values", "pages that became zeros")
        ) + ", 0 differ otherwise"
    )


if __name__ == "__main__":
    try:
        main()
    except ValueError as error:
        sys.exit(str(error))
