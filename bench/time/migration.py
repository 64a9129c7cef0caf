#!/usr/bin/env python3
"""Times what a migration does for each page, by script and by World::step, beside loops that copy pages.

Run it in any folder, once ./postmig prove has built the program, and `rt run` the crate bench: python3
bench/time/migration.py [--write]. With --write the rows of more than 1,024 pages go to docs/PERFORMANCE.md.
"""

import collections
import pathlib
import re
import tempfile

import shared  # noqa: F401

import clock
import page
from program import LOW, PAGE, PROGRAM, pushed, require, stored, switched

# How many pages, and how many runs of each script: a short run is disturbed more.
NUMBERS = ((1024, 140), (16_384, 28), (262_144, 14))


def begun(pages):
    yield from stored(pages)
    yield from ("start", "deliver", "round")


def sent(pages):
    yield from begun(pages)
    for _ in range(pages):
        yield from ("send", "deliver")


def stored_again(pages):
    yield from sent(pages)
    for index in range(pages):
        yield from (f"cpu 0 store {LOW + index * PAGE:#x} 8 1", "sread", "sact", "retry 0")


def faulted(pages):
    yield from switched(pages)
    for index in range(pages):
        addr = f"{LOW + index * PAGE:#x}"
        yield from (
            f"cpu 0 load {addr} 8", "dread", "dact", "back", "serve", f"push {addr}", "deliver", "install", "retry 0"
        )


# What is done for each page, as `bench world` calls it, with the script of what comes before and the script with it.
WORK = {
    "pre-copy": (begun, sent),
    "store": (sent, stored_again),
    "post-copy": (switched, pushed),
    "fault": (switched, faulted),
}


def play_all(pages, runs):
    """The least seconds of each script and its most memory in bytes. They take turns, so that a slow while is not one
    script's alone."""
    scripts = sorted({script for pair in WORK.values() for script in pair}, key=lambda it: it.__name__)
    memory = collections.Counter()
    with tempfile.TemporaryDirectory() as folder:
        for script in scripts:
            with open(pathlib.Path(folder) / script.__name__, "w") as file:
                file.writelines(line + "\n" for line in script(pages))

        def play():
            for script in scripts:
                seconds, most = clock.played([PROGRAM, "run"], pathlib.Path(folder) / script.__name__)
                memory[script] = max(memory[script], 1024 * most)
                yield seconds

        return dict(zip(scripts, clock.least(play, runs))), memory


def steps(pages, runs):
    """Nanoseconds a page by World::step, the least of some runs, and those of the copies. New ones are timed in a
    process of their own: as a run of a script it has no memory from other work."""
    least = {}
    for _ in range(runs):
        for words in ([pages], ["new-copies", pages]):
            line = clock.said(clock.BENCH, "world", *words)
            for name, nanoseconds in re.findall(r"([a-z-]+) (\d+)[, ]", line.split(": ")[1]):
                if name != "new-copy" or len(words) == 2:
                    least[name] = min(least.get(name, 10**12), int(nanoseconds))
    return least


def table():
    yield "| for each page | pages | by script, ns | by step, ns | a copy, ns | a new copy, ns |"
    yield "|---|---|---|---|---|---|"
    for pages, runs in NUMBERS:
        by_step = steps(pages, runs)
        copy, new = by_step["copy"], by_step["new-copy"]
        seconds, memory = play_all(pages, runs)
        for name, (base, whole) in WORK.items():
            script = (seconds[whole] - seconds[base]) * 1e9 / pages
            yield f"| {name} | {pages:,} | {script:,.0f} | {by_step[name]:,} | {copy:,} | {new:,} |"
            if name == "post-copy":
                present = 2 * pages * PAGE
                note = (
                    f"peak {memory[whole] / 2**20:,.0f} MiB, {memory[whole] / present:.2f} of the pages present on "
                    "both hosts"
                )
                yield f"| {name}, whole run | {pages:,} | {note} | | | |"


def main():
    require(PROGRAM, clock.BENCH)
    runs = ", ".join(str(runs) for _, runs in NUMBERS[1:])
    head = f"Measured on {page.machine()}, the least of {runs} runs of each script."
    clock.report(
        head,
        table(),
        lambda text: page.put(
            "migration", "\n".join(row for row in text.splitlines() if not re.match(r"\| [^|]+ \| 1,024 \|", row))
        ),
    )


if __name__ == "__main__":
    main()
