#!/usr/bin/env python3
"""Times postmig on scripts of its own making, and prints a table: seconds, lines a second, peak resident memory.

Run it in any folder, once ./postmig prove has built the program: python3 bench/time/bench.py [--write | NAME ..]
With --write the rows of SHOWN go to docs/PERFORMANCE.md.
"""

import pathlib
import subprocess
import sys
import tempfile

import shared  # noqa: F401

import clock
import page
from program import LOW, PAGE, PROGRAM, pushed, require, stored


def accesses(count, pages=1024):
    """Loads and stores in turn over present pages."""
    yield from stored(pages)
    seed = 1
    for index in range(count):
        seed = (seed * 1103515245 + 12345) % 2**31
        addr = LOW + (seed // 8 % pages) * PAGE + (seed % 512) * 8
        if index % 2:
            yield f"cpu 1 load {addr:#x} 8"
        else:
            yield f"cpu 0 store {addr:#x} 8 {index}"


def areas(count):
    """That many areas of one page each, with protections in turn, so that no two are joined."""
    for index in range(count):
        yield f"cpu 0 mmap {PAGE} {'rw' if index % 2 else 'r'}"


def loads(count, pages):
    seed = 1
    for _ in range(count):
        seed = (seed * 1103515245 + 12345) % 2**31
        yield f"cpu 0 load {LOW + (seed // 8 % pages) * PAGE:#x} 8"


def over_one_area(count, pages):
    yield f"cpu 0 mmap {pages * PAGE} rw"
    yield from loads(count, pages)


def over_many_areas(count, pages):
    yield from areas(pages)
    yield from loads(count, pages)


def mapped_and_unmapped(count):
    yield from areas(count)
    for index in range(count):
        page = index * 5 % count
        yield f"cpu 0 munmap {LOW + page * PAGE:#x} {PAGE}"


def moves(count, pages=64):
    """A range that moves back and forth between two places."""
    places = (LOW, LOW + 4096 * PAGE)
    yield from stored(pages)
    for index in range(count):
        old, new = places[index % 2], places[(index + 1) % 2]
        yield f"cpu 0 mremap {old:#x} {pages * PAGE} {pages * PAGE} maymove fixed {new:#x}"


def loaded(pages):
    yield from ("end", "deliver", "back")
    for page in range(pages):
        yield f"cpu 0 load {LOW + page * PAGE:#x} 8"


def precopy(pages):
    """A migration of that many present pages, all of them sent before the switch."""
    yield from stored(pages)
    yield from ("start", "round")
    yield from ("send" for _ in range(pages))
    yield "switch"
    yield from ("deliver" for _ in range(pages + 3))
    yield from loaded(pages)


def postcopy(pages):
    """A migration of that many present pages, all of them pushed after the switch."""
    yield from pushed(pages)
    yield from loaded(pages)


CASES = {
    "accesses-10k": lambda: accesses(10_000),
    "accesses-100k": lambda: accesses(100_000),
    "accesses-1m": lambda: accesses(1_000_000),
    "areas-only-8192": lambda: areas(8192),
    "one-area-100k": lambda: over_one_area(100_000, 8192),
    "many-areas-100k": lambda: over_many_areas(100_000, 8192),
    "map-unmap-8192": lambda: mapped_and_unmapped(8192),
    "moves-10k": lambda: moves(10_000),
    "precopy-16": lambda: precopy(16),
    "postcopy-16": lambda: postcopy(16),
    "precopy-256": lambda: precopy(256),
    "postcopy-256": lambda: postcopy(256),
    "precopy-4096": lambda: precopy(4096),
    "postcopy-4096": lambda: postcopy(4096),
    "precopy-16384": lambda: precopy(16_384),
    "postcopy-16384": lambda: postcopy(16_384),
}


# The rows that the page has, by their beginnings.
SHOWN = (
    "| case", "|---", "| accesses-1m", "| one-area", "| many-areas", "| moves-10k |", "| precopy-16384",
    "| postcopy-16384",
)

# The same scripts, run to a transcript, and those transcripts checked.
TRANSCRIPTS = ["accesses-10k", "accesses-100k", "accesses-1m", "map-unmap-8192", "moves-10k"]


def timed(name, count, arguments, script):
    """The row of a program's run on a file, the best of three."""
    runs = [clock.played([PROGRAM, *arguments], script) for _ in range(3)]
    best, memory = min(it[0] for it in runs), max(it[1] for it in runs)
    return f"| {name} | {count:,} | {best:.3f} | {count / best:,.0f} | {memory / 1024:.1f} |"


def measure(name, lines):
    with tempfile.TemporaryDirectory() as folder:
        script = pathlib.Path(folder) / "script"
        count = 0
        with open(script, "w") as file:
            for line in lines:
                file.write(line + "\n")
                count += 1
        yield timed(name, count, ["run"], script)
        if name in TRANSCRIPTS:
            transcript = pathlib.Path(folder) / "transcript"
            yield timed(f"{name}, transcript", count, ["run", "--transcript"], script)
            with open(script) as source, open(transcript, "w") as sink:
                subprocess.run([PROGRAM, "run", "--transcript"], stdin=source, stdout=sink, check=True)
            yield timed(f"{name}, check", count, ["check"], transcript)


def table(names):
    yield "| case | lines | seconds (best of 3) | lines a second | peak resident MiB |"
    yield "|---|---|---|---|---|"
    for name in names:
        yield from measure(name, CASES[name]())


def main():
    require(PROGRAM)
    words = sys.argv[1:]
    head = f"Measured on {page.machine()}."
    rows = table(CASES if words in ([], ["--write"]) else words)
    clock.report(
        head,
        rows,
        lambda text: page.put(
            "speed", "\n".join(row for row in text.splitlines() if row.startswith((head, *SHOWN)) or not row)
        ),
    )


if __name__ == "__main__":
    main()
