#!/usr/bin/env python3
"""Makes random calls of a destination and of a source, and compares each answer with that of the nodes of bench/model.

python3 bench/compare/takes.py [PROGRAM] [--runs N] [--calls N] [--seed N] [--jobs N] [--write INPUT OUTPUT]

PROGRAM is that of the crate node_tests, crates/node_tests/out/node_tests unless it is named. It makes
`Destination::take`, `take_urgent`, `install` and `pause`, and `Source::take` with what the source does in between, in
any order: no wire joins the two nodes, so every well-formed frame comes in every phase, of the node's epoch and of
others, in either version. About half of the calls are drawn from those that the node takes in its phase, so that all
phases are reached.

It prints a table of what was seen, and ends with status 1 where an answer differs, where the program ends otherwise
than with status 0, or where something was seen too seldom. With --write it writes the calls of two runs, one of each
node, and the answers of the second nodes.
"""

import argparse
import collections
import multiprocessing
import os
import random
import sys

import shared  # noqa: F401

import page
from drawing import Drawing
from model import nodes
from model.frames import LOW, TAGS
from program import require, run

CPUS = 2
PAGES = range(LOW, LOW + 16)
# A source maps these pages, and has stored to each second one.
PRESENT = frozenset(PAGES[::2])
DEST_PHASES = ("Idle", "Advised", "Discarding", "Running", "Paused", "Ended")
SOURCE_PHASES = ("Idle", "Precopy", "Stopped", "Paused", "Released")
TAKE_FAULTS = ("OutOfPlace", "StaleEpoch", "BadFrame", "InstallFirst", "UrgentFirst")
# How often each frame must be handed over in each phase, and how often each refusal must come.
OFTEN = 50


def truth(value):
    return "true" if value else "false"


def outcome(call, *arguments):
    """The line of a call, or why it is refused."""
    try:
        return call(*arguments)
    except nodes.Refused as reason:
        return f"refused {reason}"


class Destination(nodes.Destination):
    """The destination, with what the program prints of it."""

    def state(self):
        return (
            f"{self.phase.capitalize()} run {truth(self.has_run)} epoch {self.epoch} arrivals {len(self.arrivals)} "
            f"owed {len(self.owed)}"
            f" installed {self.installed} dropped {self.dropped}"
        )

    def first_bytes(self):
        """The first byte of each page, or - where it is missing."""
        found = {page: data[0] if data else 0 for page, data in self.memory.items()}
        return "".join(f" {found.get(page, '-')}" for page in PAGES)

    def installing(self):
        """The answer to an install."""
        word, *rest = outcome(self.install).split()
        numbers = [int(it, 16) for it in rest if it.startswith("0x")]
        if word == "dropped":
            return f"Dropped {{ origin: {numbers[0]} }}"
        return (
            f"Installed {{ addr: {numbers[0]}, origin: {numbers[1]} }}"
            if word == "installed"
            else " ".join([word, *rest])
        )


class Source(nodes.Source):
    """The source, with what the program prints of it. No processor does anything."""

    def __init__(self):
        super().__init__(dict.fromkeys(PRESENT))
        self.transmitted = 0
        self.calls = {
            "s": self.begin, "w": self.switch, "e": self.end, "r": self.serve, "n": self.pause, "k": self.resume
        }
        self.calls |= {"v": self.push, "x": self.push_urgent}

    def transmit(self, name, fields, urgent=False):
        self.transmitted += 1

    def resume(self):
        self.require("paused")
        self.begin_epoch()

    def state(self):
        return (
            f"{self.phase.capitalize()} switched {truth(self.is_switched)} epoch {self.epoch} remaining "
            f"{len(self.remaining)}"
            f" asked {len(self.requests)} sent {self.sent}"
        )

    def make(self, letter, *page):
        """The answer to a call that takes no frame."""
        line = outcome(self.calls[letter], *page) or ""
        return line if line.startswith("refused") else "done"


class Run(Drawing):
    """The calls of one run, the lines that they are answered by, and what was seen."""

    def __init__(self, seed, number, calls):
        super().__init__(random.Random(f"{seed} {number}"), PAGES, CPUS, wrong=0.25)
        self.destination, self.source = Destination(CPUS), Source()
        self.input, self.lines, self.counts = [], [], collections.Counter()
        for _ in range(calls):
            self.draw_destination() if number % 2 else self.draw_source()
        self.add(b"m", self.destination.first_bytes())

    def add(self, call, line):
        self.input.append(call)
        self.lines.append(line)

    def hand(self, letter, kind, node, name, page=None):
        """Hands a frame to a node. What the answer says of frames that are sent is Done of a destination, and their
        number of a source."""
        call, phase = node.take_urgent if kind == "urgent" else node.take, node.phase.capitalize()
        frame, text = self.frame(name, node.epoch, page)
        self.source.transmitted = 0
        answer = outcome(call, *frame)
        if not answer.startswith("refused"):
            answer = "took" + {"end": ", and sends Done", "recv": f", and sends {self.source.transmitted}"}.get(
                name, ""
            )
        self.counts[f"{kind} {phase} {name}"] += 1
        self.counts[f"{kind} {answer}"] += 1
        self.add(letter + text, f"{answer}; {node.state()}")

    def help(self):
        """A call by which a destination that runs comes nearer to its end."""
        node = self.destination
        if node.arrivals:
            self.add(b"i", f"{node.installing()}; {node.state()}")
        elif node.owed:
            self.hand(*self.random.choice(((b"u", "urgent"), (b"t", "take"))), node, "zero", min(node.owed))
        else:
            self.hand(b"t", "take", node, "end")

    def draw_destination(self):
        node, draw = self.destination, self.random.random()
        if node.phase == "running" and self.chance(0.5):
            self.help()
        elif draw < 0.04:
            node.pause()
            self.add(b"p", f"paused; {node.state()}")
        elif draw < 0.2:
            self.add(b"i", f"{node.installing()}; {node.state()}")
        elif draw < 0.23:
            self.add(b"m", node.first_bytes())
        elif draw < 0.4:
            self.hand(b"u", "urgent", node, self.name(("page", "zero"), 0.5))
        else:
            self.hand(b"t", "take", node, self.name(node.PLACES[node.phase], 0.6))

    def likely(self):
        """A call that the source's phase may accept."""
        return {"idle": "s", "precopy": "wwn", "stopped": "vvvvxxxxvxeeern", "paused": "k", "released": "swerk"}[
            self.source.phase
        ]

    def draw_source(self):
        node = self.source
        if self.chance(0.5):
            place = {"paused": ("recv",), "stopped": ("request", "done")}.get(node.phase)
            self.hand(b"b", "back", node, self.name(place, 0.4))
            return
        letter = self.random.choice(self.likely() if self.chance(0.8) else "swervxnk")
        page = (
            [self.random.choice(sorted(node.remaining) if node.remaining and self.chance(0.8) else PAGES)]
            if letter in "vx"
            else []
        )
        answer = node.make(letter, *page)
        self.add(letter.encode() + bytes(it - LOW for it in page), f"{answer}; {node.state()}")

    def text(self):
        return b"".join(self.input)

    def output(self):
        return "".join(f"{line}\n" for line in self.lines).encode()


def compare(job):
    program, seed, numbers, calls = job
    counts, wrong = collections.Counter(), []
    for number in numbers:
        calls_of_run = Run(seed, number, calls)
        counts.update(calls_of_run.counts)
        counts["calls"] += len(calls_of_run.lines)
        ended = run([program], calls_of_run.text())
        if (ended.stdout, ended.stderr, ended.returncode) != (calls_of_run.output(), b"", 0):
            wrong.append(number)
    return counts, wrong


def frames_in_phases():
    """Each frame in each phase."""
    for name in TAGS:
        yield from (f"take {phase} {name}" for phase in DEST_PHASES)
        yield from (f"urgent {phase} {name}" for phase in DEST_PHASES)
        yield from (f"back {phase} {name}" for phase in SOURCE_PHASES)


def answers():
    """Each answer to a frame."""
    yield from (
        "take took",
        "take took, and sends Done",
        "urgent took",
        "back took",
        "back took, and sends 0",
        "back took, and sends 2",
    )
    yield from (f"take refused {fault}" for fault in TAKE_FAULTS)
    yield from (f"{kind} refused {fault}" for kind in ("urgent", "back") for fault in ("OutOfPlace", "StaleEpoch"))
    yield "back refused BadOwed"


def table(counts, wrong, runs):
    """Prints what was seen, and answers whether it was often enough."""
    print(f"{runs} runs, {counts['calls']:,} calls; {len(wrong)} runs differ\n")
    for kind, phases in (("take", DEST_PHASES), ("urgent", DEST_PHASES), ("back", SOURCE_PHASES)):
        print(f"| {kind} | " + " | ".join(phases) + " |\n" + "|---" * (1 + len(phases)) + "|")
        for name in TAGS:
            print(f"| {name} | " + " | ".join(f"{counts[f'{kind} {phase} {name}']:,}" for phase in phases) + " |")
        print()
    print("| answer | |\n|---|---|")
    for name in answers():
        print(f"| {name} | {counts[name]:,} |")
    seldom = [name for name in (*frames_in_phases(), *answers()) if counts[name] < OFTEN]
    for name in seldom:
        print(f"seen too seldom: {name}, {counts[name]} times")
    for number in wrong[:10]:
        print(f"differs: run {number}")
    return not wrong and not seldom


def main():
    parser = argparse.ArgumentParser(description=__doc__.splitlines()[0])
    parser.add_argument("program", nargs="?", default=page.TOP / "crates" / "node_tests" / "out" / "node_tests")
    parser.add_argument("--runs", type=int, default=10_000)
    parser.add_argument("--calls", type=int, default=60)
    parser.add_argument("--seed", type=int, default=1)
    parser.add_argument("--jobs", type=int, default=os.cpu_count())
    parser.add_argument("--write", nargs=2, metavar=("INPUT", "OUTPUT"))
    options = parser.parse_args()
    if options.write:
        runs = [Run(options.seed, number, options.calls) for number in (0, 1)]
        with open(options.write[0], "wb") as calls, open(options.write[1], "wb") as answers:
            calls.write(b"".join(run.text() for run in runs))
            answers.write(b"".join(run.output() for run in runs))
        return
    program = os.path.abspath(options.program)
    require(program)
    numbers = range(options.runs)
    jobs = [(program, options.seed, numbers[at : at + 100], options.calls) for at in range(0, len(numbers), 100)]
    counts, wrong = collections.Counter(), []
    with multiprocessing.Pool(options.jobs) as pool:
        for part, differ in pool.imap_unordered(compare, jobs):
            counts.update(part)
            wrong += differ
    sys.exit(0 if table(counts, wrong, options.runs) else 1)


if __name__ == "__main__":
    main()
