#!/usr/bin/env python3
"""Times the codec, frames of pages that are written and read, as ratios to a loop that copies pages twice.

Run it in any folder, once `rt run` has built the crate bench: python3 bench/time/codec.py [--write]. With --write the
table goes to dist/CODEC.md.
"""

import itertools
import re
import subprocess
import sys
import time

import shared  # noqa: F401

import clock
import page
from program import require

FRAME = 4112
RUNS = 5

# What a piece is, its bytes, the frames of a stream, and how many streams.
PIECES = (
    ("one frame", FRAME, 1, 400_000),
    ("one frame", FRAME, 256, 2000),
    ("64 KiB", 2**16, 256, 2000),
    ("1 MiB", 2**20, 256, 2000),
    ("1 MiB", 2**20, 1024, 500),
)

# The streams that are fed byte by byte.
STREAMS = (("1 MiB", 255), ("4 MiB", 1020))


def run(kind, piece, batch, rounds, tunables):
    """The numbers that a run prints, and the greatest memory in KiB that was seen in it."""
    environment = page.environment()
    if not tunables:
        environment.pop("GLIBC_TUNABLES", None)
    words = [clock.BENCH, "frames", kind, str(piece), str(batch), str(rounds)]
    child = subprocess.Popen(words, stdout=subprocess.PIPE, text=True, env=environment)
    peak = 0
    while child.poll() is None:
        peak = max(peak, memory(child.pid))
        time.sleep(0.005)
    if child.returncode:
        sys.exit(f"{clock.BENCH}: status {child.returncode}")
    return [int(number) for number in re.findall(r"\d+", child.stdout.read())], peak


def memory(pid):
    """The peak resident KiB of a process, which getrusage would mix with those of this script; 0 once it has ended."""
    try:
        for line in open(f"/proc/{pid}/status"):
            if line.startswith("VmHWM:"):
                return int(line.split()[1])
    except (FileNotFoundError, ProcessLookupError):
        pass
    return 0


def pages():
    yield (
        "| piece | frames of a stream | allocator | codec, ns a page | two copies, ns a page | pages a second, of "
        "those of the copies |"
    )
    yield "|---|---|---|---|---|---|"
    for name, piece, batch, rounds in PIECES:
        for tunables in (True, False):
            codec, copies = clock.least(lambda: run("pages", piece, batch, rounds, tunables)[0], RUNS)
            allocator = "as the launcher asks" if tunables else "as it is"
            yield f"| {name} | {batch:,} | {allocator} | {codec} | {copies} | {copies / codec:.2f} |"


def feeds():
    yield "| fed byte by byte | ns a byte |"
    yield "|---|---|"
    for name, frames in STREAMS:
        _, picoseconds = clock.least(lambda: run("feed", 1, frames, 1, True)[0], RUNS)
        yield f"| {name} | {picoseconds / 1000:.1f} |"


def stream():
    """A stream of 1 GiB in pieces of 64 KiB, whose frames are dropped as they come."""
    (bytes_, picoseconds), peak = run("feed", 2**16, 64, 2**30 // (64 * FRAME) + 1, True)
    yield (
        f"A stream of {bytes_ / 2**30:.2f} GiB in pieces of 64 KiB: {bytes_ * picoseconds / 1e12:.2f} s, peak "
        f"{peak / 1024:.1f} MiB with the program."
    )


def main():
    require(clock.BENCH)
    lines = itertools.chain(pages(), [""], feeds(), [""], stream())
    clock.report(
        f"Measured on {page.machine()}, the best of {RUNS} runs.", lines, lambda text: page.write("CODEC.md", text)
    )


if __name__ == "__main__":
    main()
