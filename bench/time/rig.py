#!/usr/bin/env python3
"""Times a world under one lock: calls by seats, claims, and workers in threads, as ratios to what does the same without
them.

Run it in any folder, once `rt run` has built the crate bench: python3 bench/time/rig.py [--write]. With --write the
table goes to dist/RIG.md. Each row is the run with the middle ratio of some runs, in each of which both parts of the
ratio were timed.
"""

import itertools
import operator
import os
import re

import shared  # noqa: F401

import clock
import page
from program import require

RUNS = 9
CALLS = 400_000
SEATS = min(16, max(2, os.cpu_count() or 2))
CLAIMED = (1024, 16_384, 262_144)
OWED = 16_384


def run(*words):
    """The numbers that a run prints after its colon, by their names."""
    line = clock.said(clock.BENCH, "rig", *words)
    return {name: int(number) for name, number in re.findall(r"([a-z_][a-z_ ]*?) (\d+)\b", line.split(": ")[1])}


def middle(part, beside, *words):
    """The run with the middle ratio of one number to another."""
    runs = sorted((run(*words) for _ in range(RUNS)), key=lambda numbers: numbers[part] / max(numbers[beside], 1))
    return runs[RUNS // 2]


def ratios():
    yield "| what | ns | beside | ns | ratio | goal |"
    yield "|---|---|---|---|---|---|"
    numbers = middle("call", "step", "calls", CALLS)
    yield row(
        "a call of one seat", numbers["call"], "the same command by `World::step`", numbers["step"], "at most 1.5"
    )
    numbers = middle("of one seat", "of all", "seats", SEATS, CALLS // SEATS)
    one, all_ = numbers["of one seat"], numbers["of all"]
    yield (
        f"| calls of {SEATS} seats in threads, each | {all_} | calls of one seat, each | {one} | "
        f"{one / max(all_, 1):.2f} of the calls a second | at least 0.5 |"
    )
    for pages in CLAIMED:
        numbers = middle("claim", "fetch_and", "claims", pages)
        yield row(
            f"a claim, {pages:,} pages",
            numbers["claim"],
            "one `fetch_and` of a plain loop",
            numbers["fetch_and"],
            "at most 10",
        )
    numbers = middle("by workers", "by step", "post-copy", OWED)
    yield row(
        f"an owed page by three workers, {OWED:,} pages",
        numbers["by workers"],
        "the same by `World::step`",
        numbers["by step"],
        "at most 2 on four processors",
    )


def row(what, took, beside, other, goal):
    return f"| {what} | {took:,} | {beside} | {other:,} | {took / max(other, 1):.2f} | {goal} |"


def claims():
    yield "| pages | claim | `index_of` | new | close |"
    yield "|---|---|---|---|---|"
    for pages in CLAIMED:
        least = clock.least(
            lambda: operator.itemgetter("claim", "index_of", "new", "close")(run("claims", pages)), RUNS
        )
        yield f"| {pages:,} | " + " | ".join(map(str, least)) + " |"


def main():
    require(clock.BENCH)
    head = (
        f"Measured on {page.machine()}: of each row the run with the middle ratio of {RUNS}. `Claims` take these "
        "nanoseconds a page, "
        f"the least of {RUNS} runs, in the second table."
    )
    clock.report(head, itertools.chain(ratios(), [""], claims()), lambda text: page.write("RIG.md", text))


if __name__ == "__main__":
    main()
