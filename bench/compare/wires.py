#!/usr/bin/env python3
"""Compares the wires of runs with their output: docs/decode.py decodes every frame, and the frames are those that the
lines name.

python3 bench/compare/wires.py [SEEDS] [--first SEED] [--lines N] [--program PATH]

It runs `postmig run --wire --back --urgent` on each example, and for each seed from SEED on (1), SEEDS of them (25), on
a script of each profile of `postmig explore`. What is put on each wire follows from the lines of the output; the
decoded frames must be these, with their epochs, in this order, and the output the one of `postmig run`. The part of
each wire up to its first Package goes to `postmig frames`, which takes it as the destination took it. Run it once
./postmig prove has built the program.
"""

import argparse
import collections
import os
import pathlib
import re
import sys
import tempfile

import shared  # noqa: F401

import page
from model import frames
from model.frames import decode
from program import PAGE, PROFILES, PROGRAM, run

WIRES = ("wire", "back", "urgent")
NUMBER = re.compile(r"0x[0-9a-f]+|\d+")


class Expected:
    """The frames on each wire, by the lines of a run. A frame is (epoch, name, what the lines say of it)."""

    def __init__(self):
        self.wires = {name: [] for name in WIRES}
        self.source = self.destination = 0
        self.up, self.switched, self.running, self.ended, self.paused = True, False, False, False, False
        self.requests, self.owed, self.urgent = [], None, 0

    def forward(self, name, *found):
        self.wires["wire"].append((self.source, name, *found))

    def back(self, name, *found):
        if self.up:
            self.wires["back"].append((self.destination, name, *found))

    def package(self, discarded):
        self.forward("discard", discarded)
        self.forward("package", self.owed)

    def sent(self, word, kind, *numbers):
        if word == "upush":
            self.urgent += 1
            self.wires["urgent"].append((self.source, kind, *numbers))
        else:
            self.forward(kind, *numbers)

    def resumed(self):
        """The destination has taken Resume: it reports, and repeats its requests."""
        self.destination, self.paused = self.source, False
        state = "ended" if self.ended else "running" if self.running else "notrun"
        self.back("recv", state)
        if state == "running":
            for origin in self.requests:
                self.back("request", origin)

    def requested(self, origin):
        if origin not in self.requests:
            self.requests.append(origin)
            if not self.paused and not self.ended:
                self.back("request", origin)

    def took(self, kind, rest):
        if kind == "advise":
            self.destination = self.source
        elif kind == "package":
            self.running = True
        elif kind == "end":
            self.ended = True
            self.back("done")
        elif kind == "resume":
            self.resumed()
        elif kind == "recv" and rest[0] == "notrun" and self.switched:
            self.owed = None
            self.package(0)

    def line(self, word, output):
        """The step of a script line that begins with this word had this output."""
        name, *rest = output
        numbers = [int(text, 0) for text in rest if NUMBER.fullmatch(text)]
        if name == "started":
            self.source = numbers[0]
            self.forward("advise")
        elif name == "sent":
            self.sent(word, rest[0], *numbers)
        elif name == "end":
            self.forward("end", self.urgent)
        elif name == "switched":
            self.switched, self.owed = True, numbers[1]
            self.package(numbers[0])
        elif name == "requested":
            self.requested(numbers[0])
        elif name == "installed" and numbers[-1] in self.requests:
            self.requests.remove(numbers[-1])
        elif name == "took":
            self.took(rest[0], rest[1:])
        elif name == "broken":
            self.up = False
        elif output == ["paused", "dest"]:
            self.paused = True
        elif name == "resumed":
            self.up, self.source, self.urgent = True, numbers[0], 0
            self.forward("resume")


def told(name, found):
    """What the lines of a run say of a decoded frame."""
    if name in ("page", "zero", "request"):
        return (PAGE * found["page"],)
    if name == "run":
        return (PAGE * found["page"], found["count"])
    if name == "discard":
        return (sum(run[1] for run in found["pages"]),)
    if name == "package":
        return (sum(run[1] for run in found["owed"]),)
    return (found["urgent"],) if name == "end" else (found["state"],) if name == "recv" else ()


def is_same(wanted, seen):
    """A Package that is sent again owes a number of pages that no line says."""
    return wanted == seen or wanted[:2] == seen[:2] and wanted[1] == "package" and wanted[2] is None


def lines_of(script, output):
    """Each line of a script that has output, with it."""
    words = [line.split() for line in script.decode().splitlines()]
    lines = [line for line in words if line and not line[0].startswith("#")]
    return list(zip(lines, (line.split() for line in output.decode().splitlines())))


def front_lines(data):
    """The bytes up to the first Package, and what a destination that was never paused takes of them."""
    at, lines = 0, []
    for _, name, found in decode.frames(data):
        if name == "resume":
            return b"", []
        at += frames.HEADER + len(frames.body_of(name, found))
        lines.append(f"took {frames.told(name, found)}")
        if name == "package":
            break
    return data[:at], lines


def judge(program, name, script, cpus, counts):
    words = [*program, "run", "--cpus", cpus]
    plain = run(words, script)
    with tempfile.TemporaryDirectory() as folder:
        files = {wire: os.path.join(folder, wire) for wire in WIRES}
        tapped = run([*words, *(text for wire in WIRES for text in (f"--{wire}", files[wire]))], script)
        data = {wire: pathlib.Path(files[wire]).read_bytes() for wire in WIRES}
    if (plain.stdout, plain.returncode) != (tapped.stdout, tapped.returncode):
        raise ValueError(f"{name}: another output")
    expected = Expected()
    for line, output in lines_of(script, plain.stdout):
        expected.line(line[0], output)
    for wire in WIRES:
        seen = [(epoch, kind, *told(kind, found)) for epoch, kind, found in decode.frames(data[wire])]
        wanted = expected.wires[wire]
        for at in range(max(len(seen), len(wanted))):
            if at >= len(seen) or at >= len(wanted) or not is_same(wanted[at], seen[at]):
                raise ValueError(f"{name}: --{wire}: frame {at}: {seen[at : at + 1]}, wanted {wanted[at : at + 1]}")
            counts[f"{wire} {seen[at][1]}"] += 1
        counts["bytes"] += len(data[wire])
    front, lines = front_lines(data["wire"])
    if front:
        taken = run([*program, "frames", "--cpus", cpus], front).stdout.decode().splitlines()
        if taken != lines:
            raise ValueError(f"{name}: frames: {taken[-3:]}, wanted {lines[-3:]}")
        counts["fronts"] += 1


def main():
    parser = argparse.ArgumentParser()
    parser.add_argument("seeds", nargs="?", type=int, default=25)
    parser.add_argument("--first", type=int, default=1)
    parser.add_argument("--lines", type=int, default=500)
    parser.add_argument("--program", default=str(PROGRAM))
    given = parser.parse_args()
    program, counts, scripts = given.program.split(), collections.Counter(), 0
    for path in sorted((page.TOP / "examples").glob("*.script")):
        judge(program, path.name, path.read_bytes(), "2", counts)
        scripts += 1
    for seed in range(given.first, given.first + given.seeds):
        for profile in PROFILES:
            cpus = str((1, 2, 4, 16)[seed % 4])
            words = [
                *program, "explore", "--seed", str(seed), "--lines", str(given.lines), "--profile", profile, "--cpus",
                cpus,
            ]
            judge(program, f"{profile} {seed}", run(words).stdout, cpus, counts)
            scripts += 1
    fronts, size = counts.pop("fronts"), counts.pop("bytes")
    for name in sorted(counts):
        print(f"{name:16} {counts[name]}")
    print(
        f"{scripts} scripts, {sum(counts.values())} frames in {size} bytes, all named by the lines; {fronts} fronts "
        "taken by postmig frames"
    )


if __name__ == "__main__":
    try:
        main()
    except ValueError as error:
        sys.exit(str(error))
