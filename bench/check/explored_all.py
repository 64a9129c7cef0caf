#!/usr/bin/env python3
"""Walks small worlds as postmig explore --all does, without its walk, and compares what both find.

python3 bench/check/explored_all.py [--program PATH] [--quick]

A walk here makes the lines of scripts on worlds of the library (python/). Two worlds are the same where all that `show`
prints of them, their counts and their transcripts are, and `is_same` says so too. The numbers of states, of steps that
are made and refused, of complete states and of dead ends must be those of the program, and the refusals that it writes
scripts for those met here: each script has as many lines as the shortest way here, and its run ends with its refusal.

The library is that of dist/, or the one that POSTMIG_LIBRARY names; without one nothing is walked, which is said.
--quick leaves out the world of two pages and two processors. The status is 1 where anything differs.
"""

import argparse
import os
import pathlib
import subprocess
import sys
import tempfile

import shared  # noqa: F401

import page
from program import PROGRAM, require

sys.path.insert(1, str(page.TOP / "python"))
LIBRARY = page.TOP / "dist" / "libpostmig.so"
PAGE, FIRST = 4096, 0x10000
FREE = (
    "start", "send", "sread", "sact", "switch", "deliver", "back", "udeliver", "dread", "dact", "install", "serve",
    "end", "notice source", "notice dest", "resume",
)
# Pages, processors, breaks, rounds and commands of each world.
WORLDS = ((1, 1, 0, 1, 1), (1, 1, 1, 0, 3), (1, 1, 1, 1, 1), (1, 2, 0, 0, 1), (2, 1, 0, 1, 2), (2, 2, 0, 0, 1))


class Small:
    """The lines that the schedules of a small world choose from."""

    def __init__(self, pages, cpus, breaks, rounds, commands):
        self.pages, self.cpus, self.breaks, self.rounds = pages, cpus, breaks, rounds
        self.begin = f"cpu 0 mmap {pages * PAGE} rw"
        runs = [f"sendrun {pages}"] if pages > 1 else []
        pushes = [
            f"{word} 0x{FIRST + PAGE * number:x} {epoch}"
            for epoch in range(1, breaks + 2) for number in range(pages) for word in ("push", "upush")
        ]
        self.lines = [*FREE, *runs, *pushes, *(f"retry {cpu}" for cpu in range(cpus + 1))]
        self.lines.append(self.command(cpus, 0))
        self.commands = [[self.command(cpu, number) for number in range(commands)] for cpu in range(cpus)]

    def command(self, cpu, number):
        own, following = (FIRST + PAGE * (at % self.pages) for at in (cpu, cpu + 1))
        words = f"store 0x{own:x} 8 {cpu + 1}", f"load 0x{following:x} 8", f"dontneed 0x{own:x} {PAGE}"
        return f"cpu {cpu} {words[number]}"

    def choices(self, state):
        """The lines that a schedule may choose in a state."""
        yield from self.lines
        if state.rounds < self.rounds:
            yield "round"
        if state.breaks < self.breaks:
            yield "break"
        for cpu, commands in enumerate(self.commands):
            made = sum(entry.split()[0] == b"%d" % cpu for entry in state.transcript) - (cpu == 0)
            yield from commands[made:made + 1]


class State:
    """A world, what came of its commands, and the number of lines that lead to it."""

    def __init__(self, world, transcript, breaks, depth):
        counts = world.counts()
        self.world, self.transcript, self.breaks, self.depth = world, transcript, breaks, depth
        self.rounds, self.phase = counts.rounds, counts.phase
        self.key = (world.show(), transcript, bytes(counts))

    def after(self, line):
        world = self.world.copy(transcript=True)
        entries = world.line(line.encode()).splitlines()
        return State(world, (*self.transcript, *entries), self.breaks + (line == "break"), self.depth + 1)


class Walk:
    """All states of a small world, breadth first."""

    def __init__(self, postmig, small):
        self.complete_phase, self.small = postmig.COMPLETE, small
        self.steps = self.refusals = self.complete = self.dead_ends = 0
        self.met = {}
        world = postmig.World(small.cpus, transcript=True)
        first = State(world, tuple(world.line(small.begin.encode()).splitlines()), 0, 1)
        self.found, self.states = {first.key: [first]}, [first]
        for state in self.states:
            self.look_at(state)

    def look_at(self, state):
        made = 0
        for line in self.small.choices(state):
            refusal = state.world.would(line.encode())
            if refusal:
                self.refusals += 1
                self.met.setdefault(f"{line.split()[0]}-{refusal}", state.depth + 1)
            else:
                made += 1
                self.add(state.after(line))
        self.steps += made
        if state.phase == self.complete_phase:
            self.complete += 1
        elif not made:
            self.dead_ends += 1

    def add(self, state):
        others = self.found.setdefault(state.key, [])
        if any(other.world.is_same(state.world) for other in others):
            state.world.close()
        else:
            others.append(state)
            self.states.append(state)

    def said(self):
        """What the program prints of it."""
        return (
            f"states {len(self.states)}\nsteps {self.steps}\nrefusals {self.refusals}\ncomplete {self.complete}\n"
            f"dead ends {self.dead_ends}\nmet {len(self.met)}\n"
        )


def scripts_differ(program, folder, walk):
    """Whether the scripts of a folder are not those of the refusals that the walk met."""
    lengths = {}
    for script in sorted(pathlib.Path(folder).iterdir()):
        lines, (word, refusal) = script.read_text().splitlines(), script.stem.split("-")
        lengths[script.stem] = len(lines) - 1
        ended = subprocess.run(
            [program, "run", "--cpus", str(walk.small.cpus), script], capture_output=True, text=True
        )
        if ended.returncode or ended.stdout.splitlines()[-1] != f"refused {refusal}" or lines[-1].split()[0] != word:
            return True
    return lengths != walk.met


def differs(program, postmig, size):
    """Compares both walks of a world."""
    names = ("--pages", "--cpus", "--breaks", "--rounds", "--commands")
    words = [word for name, number in zip(names, size) for word in (name, str(number))]
    walk = Walk(postmig, Small(*size))
    with tempfile.TemporaryDirectory() as folder:
        ended = subprocess.run(
            [program, "explore", "--all", *words, "--out", folder], capture_output=True, text=True
        )
        wrong = ended.returncode or ended.stdout != walk.said() or scripts_differ(program, folder, walk)
    if wrong:
        said = f"the program has\n{ended.stdout}{ended.stderr}and this walk\n{walk.said()}"
        print(f"explored_all: {' '.join(words)}: {said}", file=sys.stderr)
    return bool(wrong)


def ends_otherwise(program):
    """How many command lines of --all end otherwise than they should."""
    cases = (
        (["--all", "--states", "10"], 5, "more than 10 states: '--states <N>'"),
        (["--all", "--seed", "1"], 1, "'--seed <S>'"),
        (["--all", "--answers"], 1, "'--answers'"),
        (["--seed", "1", "--breaks", "1"], 1, "'--seed <S>'"),
        (["--breaks", "1"], 1, "--all"),
        (["--all", "--cpus", "17"], 1, "'--cpus <N>'"),
        (["--all", "--commands", "4"], 1, "'--commands <N>'"),
        (["--all", "--out", "/dev/null/folder"], 2, "/dev/null/folder"),
        ([], 1, "--all"),
    )
    wrong = 0
    for words, status, said in cases:
        ended = subprocess.run([program, "explore", *words], capture_output=True, text=True)
        if ended.returncode != status or said not in ended.stderr or ended.stdout:
            said = f"status {ended.returncode}\n{ended.stderr}"
            print(f"explored_all: explore {' '.join(words)}: {said}", file=sys.stderr)
            wrong += 1
    return wrong


def main():
    asked = argparse.ArgumentParser(description=__doc__, formatter_class=argparse.RawDescriptionHelpFormatter)
    asked.add_argument("--program", default=str(PROGRAM))
    asked.add_argument("--quick", action="store_true")
    given = asked.parse_args()
    require(given.program)
    wrong = ends_otherwise(given.program)
    if not LIBRARY.exists() and "POSTMIG_LIBRARY" not in os.environ:
        print("explored_all: no library of these sources, so no world was walked")
        return 1 if wrong else 0
    import postmig

    worlds = [size for size in WORLDS if not given.quick or size[:2] != (2, 2)]
    wrong += sum(differs(given.program, postmig, size) for size in worlds)
    print(f"explored_all: {len(worlds)} worlds, {wrong} faults")
    return 1 if wrong else 0


if __name__ == "__main__":
    sys.exit(main())
