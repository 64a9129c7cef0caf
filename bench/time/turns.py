#!/usr/bin/env python3
"""Compares two builds of a program, on the same scripts and in turns: the clock, and the instructions that callgrind
counts.

python3 bench/time/turns.py [BEFORE AFTER] [--bench BEFORE AFTER] [--runs N]

The first pair are two postmig programs (crates/postmig/out/postmig). They run the scripts of migration.py and some of
bench.py. The pair after --bench are two programs that time the codec: the crate bench, or a program by another name,
which takes the words after `bench frames` as its own. Each is copied before it runs, so that a build may continue. N is
20 where it is not given.

Of each script it prints the least seconds of N runs of both programs and the ratio, and then the instructions of user
space: of a migration those for a page, as the difference between a run with the lines for the pages and one without
them, else those for a line. Migrations of more pages than COUNTED are counted with that many. Of the codec it prints
nanoseconds a page or a byte, and the instructions of a frame, as the difference between many rounds and few; those of
`pages` are of the codec's loop alone (LOOP), without the copies beside it. The last line has the greatest ratio of
instructions.
"""

import argparse
import os
import pathlib
import re
import shutil
import subprocess
import sys
import tempfile

import shared  # noqa: F401

import clock
import page
from program import file_at
from bench import CASES
from migration import WORK

# The pages of a migration, and the most with which instructions are counted.
NUMBERS = (1024, 16_384)
COUNTED = 4096

# The scripts of bench.py that are run, each with whether its instructions are counted.
LINES = {
    "accesses-10k": True,
    "accesses-100k": False,
    "many-areas-100k": False,
    "map-unmap-8192": True,
    "moves-10k": True,
}

# What the codec is timed on: a kind, the bytes of a piece, the frames of a stream, and the rounds of a run on the
# clock.
CODEC = (
    ("pages", 4112, 1, 100_000),
    ("pages", 2**16, 256, 500),
    ("pages", 2**20, 1024, 100),
    ("feed", 2**16, 256, 500),
    ("feed", 1, 16, 20),
)

# The function of the program that has the codec's loop, without the copies beside it.
LOOP = "*codec::write_and_read*"

# How many frames are counted in few rounds, and how many times as many in many.
FEW_FRAMES, TIMES = 256, 5


def instructions(program, words, script=os.devnull, function=None):
    """The instructions of user space of one run, or of the calls of a function in it."""
    only = [f"--toggle-collect={function}"] if function else []
    command = ["valgrind", "--tool=callgrind", f"--callgrind-out-file={os.devnull}", *only, program, *words]
    with open(script) as source:
        done = subprocess.run(
            command, stdin=source, stdout=subprocess.DEVNULL, stderr=subprocess.PIPE, env=page.environment()
        )
    said = done.stderr.decode(errors="replace")
    counted = re.search(r"Collected : (\d+)", said)
    if done.returncode or not counted:
        sys.exit(f"{' '.join(map(str, command))}: status {done.returncode}\n{said}")
    return int(counted.group(1))


class Scripts:
    """Scripts in a folder, each written when it is first asked for."""

    def __init__(self, folder):
        self.folder = pathlib.Path(folder)

    def path(self, name, lines):
        path = self.folder / name
        if not path.exists():
            with open(path, "w") as file:
                file.writelines(line + "\n" for line in lines())
        return path

    def migration(self, make, pages):
        return self.path(f"{make.__name__}-{pages}", lambda: make(pages))

    def lines(self, name):
        return self.path(name, CASES[name])


def seconds(programs, script, runs):
    """The least seconds of each program on a script. They take turns."""
    return clock.least(lambda: [clock.played([program, "run"], script)[0] for program in programs], runs)


def row(name, unit, took, digits, counted):
    """A row of the table: both clocks and both counts, each pair with its ratio."""
    cells = [name, unit, *(f"{it:.{digits}f}" for it in took), f"{took[1] / max(took[0], 1e-9):.3f}"]
    if counted:
        cells += [*(f"{it:,.1f}" for it in counted), f"{counted[1] / counted[0]:.4f}"]
    else:
        cells += ["", "", ""]
    print("| " + " | ".join(cells) + " |", flush=True)


def head(took, counted):
    print(f"| what | for each | {took}, before | after | ratio | {counted}, before | after | ratio |")
    print("|---|---|---|---|---|---|---|---|")


def of_page(program, scripts, base, whole, pages):
    """The instructions for each page: of a script, without those of what comes before."""
    begun, all_of_it = (instructions(program, ["run"], scripts.migration(make, pages)) for make in (base, whole))
    return (all_of_it - begun) / pages


def compare_migrations(programs, scripts, runs):
    """The ratios of the instructions of migrations, of which each count is made once."""
    known = {}
    for pages in NUMBERS:
        for name, (base, whole) in WORK.items():
            script = scripts.migration(whole, pages)
            took = seconds(programs, script, runs)
            at = name, min(pages, COUNTED)
            if at not in known:
                known[at] = [of_page(program, scripts, base, whole, at[1]) for program in programs]
            row(f"{name}, {pages:,} pages", "page", took, 4, known[at])
    return [after / before for before, after in known.values()]


def compare_lines(programs, scripts, runs):
    ratios = []
    for name, is_counted in LINES.items():
        script = scripts.lines(name)
        took = seconds(programs, script, runs)
        counted = None
        if is_counted:
            count = script.read_text().count("\n")
            counted = [instructions(program, ["run"], script) / count for program in programs]
            ratios.append(counted[1] / counted[0])
        row(name, "line", took, 4, counted)
    return ratios


def codec_words(program, words):
    return ["frames", *words] if program.name == "bench" else words


def codec_clock(program, kind, piece, batch, rounds):
    """Nanoseconds a page, or picoseconds a byte."""
    said = clock.said(program, *codec_words(program, [kind, piece, batch, rounds]))
    numbers = [int(number) for number in re.findall(r"\d+", said)]
    return numbers[0] if kind == "pages" else numbers[1]


def codec_count(program, kind, piece, batch):
    """The instructions of a frame, in rounds that are many as against few."""
    few = max(FEW_FRAMES // batch, 1)
    function = LOOP if kind == "pages" else None
    counts = []
    for rounds in (few, few * TIMES):
        words = codec_words(program, [kind, str(piece), str(batch), str(rounds)])
        counts.append(instructions(program, words, function=function))
    if counts[0] == counts[1]:
        sys.exit(f"{program}: no function {LOOP}")
    return (counts[1] - counts[0]) / (few * (TIMES - 1) * batch)


def compare_codecs(programs, runs):
    ratios = []
    for kind, piece, batch, rounds in CODEC:
        took = clock.least(lambda: [codec_clock(program, kind, piece, batch, rounds) for program in programs], runs)
        counted = [codec_count(program, kind, piece, batch) for program in programs]
        ratios.append(counted[1] / counted[0])
        row(
            f"{kind}, pieces of {piece:,}, {batch:,} frames",
            "page" if kind == "pages" else "byte, frame",
            took,
            0,
            counted,
        )
    return ratios


def copied(folder, programs):
    """Copies of both programs, in folders of their own, by their names."""
    paths = []
    for place, program in zip(("before", "after"), programs):
        target = pathlib.Path(folder) / place / pathlib.Path(program).name
        target.parent.mkdir(exist_ok=True)
        shutil.copy(program, target)
        paths.append(target)
    return paths


def asked():
    parser = argparse.ArgumentParser(description="Compares two builds of a program on the same scripts, in turns.")
    parser.add_argument(
        "programs", nargs="*", type=file_at, metavar="PROGRAM", help="two postmig programs, before and after"
    )
    parser.add_argument(
        "--bench", nargs=2, type=file_at, metavar=("BEFORE", "AFTER"), help="two programs that time the codec"
    )
    parser.add_argument("--runs", type=int, default=20, metavar="N", help="the runs of each script")
    arguments = parser.parse_args()
    if len(arguments.programs) not in (0, 2) or not (arguments.programs or arguments.bench) or arguments.runs < 1:
        parser.error("it takes two programs, or two behind --bench, and at least one run")
    return arguments


def main():
    arguments = asked()
    ratios = []
    print(f"On {page.machine()}, in turns, the least of {arguments.runs} runs of each.\n")
    with tempfile.TemporaryDirectory(prefix="turns-") as folder:
        if arguments.programs:
            programs, scripts = copied(folder, arguments.programs), Scripts(folder)
            head("seconds of the script", "instructions")
            ratios += compare_migrations(programs, scripts, arguments.runs)
            ratios += compare_lines(programs, scripts, arguments.runs)
            print()
        if arguments.bench:
            head("ns a page, ps a byte", "instructions a frame")
            ratios += compare_codecs(copied(folder, arguments.bench), arguments.runs)
            print()
    print(f"The greatest ratio of instructions: {max(ratios):.4f}")


if __name__ == "__main__":
    main()
