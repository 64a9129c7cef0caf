#!/usr/bin/env python3
"""Plays scripts through a source and a destination of the library, each in a process of its own with wires of bytes
between them, and compares each step with `postmig run`; then the traces of both are merged and judged.

python3 bench/compare/nodes.py [--scripts N] [--program PATH]

The scripts are those of examples/ and N random ones (200) of `postmig explore`; their stores store 0, since a node has
no contents. The status is 1 where a step differs. It needs the library: ./postmig library.
"""

import argparse
import collections
import fcntl
import os
import pathlib
import subprocess
import sys
import tempfile

import shared  # noqa: F401

import contents
import merge
import merging
from page import TOP
from program import run, written

# Bytes of a pipe; of a user without privileges the kernel allows this.
PIPE = 1 << 20
WORLDS = ("break", "progress")


def build(folder):
    """The player, with both sanitizers."""
    made = pathlib.Path(folder) / "play"
    written(
        [
            "cc",
            "-std=gnu11",
            "-g",
            "-O1",
            "-Wall",
            "-Wextra",
            "-Wconversion",
            "-Werror",
            "-fsanitize=address,undefined",
            "-fno-sanitize-recover=all",
            "-I",
            TOP / "crates/postmig_c/include",
            "-o",
            made,
            TOP / "bench/embed/play.c",
            TOP / "dist/libpostmig.a",
        ]
    )
    return made


class Node:
    def __init__(self, program, words, files):
        self.process = subprocess.Popen(
            [program, *words, *map(str, files)],
            stdin=subprocess.PIPE,
            stdout=subprocess.PIPE,
            text=True,
            pass_fds=files,
        )

    def say(self, line):
        self.process.stdin.write(f"{line}\n")
        self.process.stdin.flush()
        said = self.process.stdout.readline()
        if not said:
            raise ValueError(f"`{line}`: a node ended with status {self.process.wait()}")
        return said.rstrip("\n")

    def end(self):
        self.process.stdin.close()
        self.process.stdout.close()
        return self.process.wait()


class Pair:
    """Both nodes, and what is between them."""

    def __init__(self, program, cpus):
        pipes = [os.pipe() for _ in range(3)]
        for _, end in pipes:
            fcntl.fcntl(end, fcntl.F_SETPIPE_SZ, PIPE)
        (main, urgent, back) = pipes
        self.source = Node(program, ["source", str(cpus), "0", "0"], (main[1], urgent[1], back[0]))
        self.dest = Node(program, ["dest", str(cpus)], (main[0], urgent[0], back[1]))
        for pipe in pipes:
            for end in pipe:
                os.close(end)

    def drop(self):
        for node in (self.source, self.dest):
            node.say("drop")

    def end(self):
        return self.source.end(), self.dest.end()


def is_of_the_world(words, answer):
    """A line that no node is asked for: the world's own, and what only a world refuses."""
    return (
        words[0] in WORLDS
        or answer.startswith("moved ")
        or answer == "refused Broken"
        or (
            words[0] in ("notice", "resume", "deliver", "back", "udeliver")
            and answer in ("refused Phase", "refused NotBroken")
        )
    )


def play(program, test, cpus, counts):
    """The first line that differs, or None; and the traces of both nodes."""
    nodes, has_run, traces, epoch = Pair(program, cpus), False, {merge.SOURCE: [], merge.DEST: []}, 0
    try:
        for line in test.splitlines():
            order, arrow, answer = line.partition(" => ")
            if not arrow or line.startswith("#"):
                continue
            words = order.split()
            if answer == "broken" or answer.startswith("resumed"):
                nodes.drop()  # (at the resume what a node has sent that had not noticed the break)
            if is_of_the_world(words, answer):
                counts["lines of the world alone"] += 1
                continue
            is_source = merge.is_at_source(words, has_run)
            said = (nodes.source if is_source else nodes.dest).say(order)
            counts["steps"] += 1
            found = said.partition(" => ")[2] or said
            if found != (
                answer
                if answer != "refused NothingThere" or words[0] not in ("deliver", "back", "udeliver")
                else "status 1000"
            ):
                return f"{line}: the node says {said}", None
            counts["refused"] += said == found
            if said != found:
                traces[merge.SOURCE if is_source else merge.DEST].append(said)
            epoch = int(answer.split()[-1]) if answer.startswith(("started", "resumed")) else epoch
            if answer == "took resume":
                traces[merge.DEST].append(f"# epoch {epoch}")
            has_run |= answer.startswith("took package")
    finally:
        ended = nodes.end()
    if ended != (0, 0):
        return f"the nodes ended with {ended}", None
    return None, {name: f"# cpus {cpus}\n" + "".join(f"{it}\n" for it in lines) for name, lines in traces.items()}


def zeroed(test):
    """Its orders; all stores of a right form store 0."""
    for line in test.splitlines():
        if not line.startswith("#"):
            yield contents.changed_line([0] * 256, line.partition(" => ")[0])


def main():
    given = argparse.ArgumentParser(
        description="Plays scripts through two nodes, and compares each step with postmig run."
    )
    given.add_argument("--scripts", type=int, default=200, metavar="N", help="random scripts (200)")
    given.add_argument("--program", type=pathlib.Path, default=TOP / "postmig", metavar="PATH")
    arguments = given.parse_args()
    os.environ["POSTMIG_PROVED_ONLY"] = "1"  # (a run of a build without proof takes a minute)
    counts, wrong = collections.Counter(), []
    with tempfile.TemporaryDirectory() as folder:
        program, files = build(folder), []
        for number, (name, cpus, test) in enumerate(merge.tests(arguments.program, arguments.scripts)):
            script = "".join(f"{line}\n" for line in zeroed(test)).encode()
            wanted = written([arguments.program, "run", "--answers", "--cpus", str(cpus)], script).decode()
            differs, traces = play(program, wanted, cpus, counts)
            counts["scripts"] += 1
            if differs:
                wrong.append(f"{name}: {differs}")
                continue
            files.append(pathlib.Path(folder) / f"{number}.test")
            try:
                files[-1].write_text(merge.merged(traces, number).text())
            except merging.NoOrder as none:
                wrong.append(f"{name}: {none}")
                files.pop()
        judged = run([arguments.program, "test", "--strict", *files])
    wrong += judged.stdout.decode().splitlines()[:-1] if judged.returncode else []
    print(", ".join(f"{value:,} {name}" for name, value in counts.items()) + f": {len(wrong)} differ")
    print("merged:", judged.stdout.decode().splitlines()[-1])
    for line in wrong[:20]:
        print(line)
    return 1 if wrong else 0


if __name__ == "__main__":
    sys.exit(main())
