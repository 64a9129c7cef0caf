#!/usr/bin/env python3
"""Compares `postmig frames` with the decoder and the destination of bench/model, on streams of frames that were changed
and cut.

python3 bench/compare/streams.py PROGRAM [--streams N] [--seed N] [--jobs N] [--no-memory]

A stream is a migration as a source would send it, of either version, with frames that are out of place, of another
epoch or wrong in between; in most of them a byte is changed, or a header is broken, or the end is cut off. Half of them
continue after a Package that is taken. For each the whole output, standard error and status must be equal. Then the
greatest memory of the program is measured on some of these streams: at most that of the pages that the destination
keeps and of those that wait, and 16 MiB. On the largest streams that there are it may have twice the bytes of the
longest frame besides: those that the decoder holds until the frame is whole, and what is read of them.

It prints a table of what was seen, and ends with status 1 where something differs or was seen too seldom.
"""

import argparse
import collections
import fcntl
import multiprocessing
import os
import random
import struct
import subprocess
import sys
import tempfile
import termios
import time

import shared  # noqa: F401

from drawing import Drawing
from model.frames import HEADER, HIGH, LOW, MOST, PAGE, TAGS, encode, header, page_frame, read
from model.nodes import Destination, Refused
from program import require, run

SLACK = 16 * 2**20

FAULTS = ("BadTag", "BadLength", "BadField")
TAKEN = ("advise", "page", "zero", "run", "discard", "package", "end")
REFUSALS = ("OutOfPlace", "StaleEpoch", "BadFrame", "InstallFirst", "UrgentFirst")
# How often each of these must be seen.
OFTEN = 100
BYTES = 10_000_000


def line_of(destination, frame):
    try:
        return destination.take(*frame)
    except Refused as reason:
        return f"refused {reason}"


class Wanted:
    """What the program must answer to a stream."""

    def __init__(self, stream, cpus):
        frames, self.bytes, self.end = read(stream)
        destination = Destination(cpus)
        self.lines, self.most = [], 0  # most: pages that it held or kept and that waited, at most
        for it in frames:
            self.lines.append(line_of(destination, it))
            self.most = max(self.most, len(destination.kept) + len(destination.memory) + len(destination.arrivals))
        self.output = "".join(f"{line}\n" for line in self.lines).encode()
        self.error = {"": b"", "truncated": b"truncated stream\n"}.get(self.end, f"stream fault {self.end}\n".encode())
        self.status = 1 if self.end else 0
        self.has_run = destination.has_run


# Making streams


class Maker(Drawing):
    """One stream, by its number."""

    def __init__(self, seed, number):
        draws = random.Random(f"{seed} {number}")
        base = draws.choice((LOW, LOW, 0x3F0, 0xFF000, HIGH - 48))
        super().__init__(draws, range(base, base + 48), draws.choice((1, 2, 2, 3, 16)), wrong=0.1, light=0.9)
        self.version = 1 + number % 2
        self.runs = number // 2 % 2 == 0  # whether it continues after a Package that is taken

    def next_text(self, likely):
        """The text of a frame more, with this chance one that the destination takes in its phase."""
        name = self.name(self.destination.PLACES[self.destination.phase], likely)
        name = "zero" if (name, self.version) == ("run", 1) else name
        frame, text = self.frame(name, self.destination.epoch, version=self.version)
        line_of(self.destination, frame)
        return text

    def stream(self):
        parts = []
        while self.runs and not self.destination.has_run:
            parts.append(self.next_text(0.85))
        first = sum(map(len, parts))
        parts += [self.next_text(0.7) for _ in range(self.random.randrange(10))]
        return self.damage(b"".join(parts), first)

    def damage(self, stream, first):
        """Changes a byte, breaks a header or cuts the end off, none of it before `first`."""
        kind = self.random.random()
        if kind < 0.2 or first >= len(stream):
            return stream
        if kind < 0.45:
            return stream[: self.random.randrange(first, len(stream))]
        if kind < 0.75:
            at = self.random.randrange(first, min(len(stream), first + 400))
            byte = stream[at] ^ (1 << self.random.randrange(8))
            return stream[:at] + bytes([byte]) + stream[at + 1 :]
        return stream + self.broken() + self.random.randbytes(self.random.randrange(20))

    def broken(self):
        kind, epoch = self.random.randrange(4), self.destination.epoch
        if kind == 0:
            return header(epoch, TAGS["advise"], 0, self.random.choice((0, 3 - self.version, 3)))
        if kind == 1:
            return header(epoch, self.random.choice((0, 9, 0x80, 0x84)), 0, self.version)
        if kind == 2:
            return header(epoch, TAGS["zero"], self.random.choice((0, 3, 5, 2**32 - 1)), self.version)
        return encode(epoch, "request", {"page": self.random.choice((0, LOW - 1, HIGH))}, self.version)


# Comparing


class Tally:
    """What was seen in some streams."""

    def __init__(self):
        self.counts = collections.Counter()
        self.wrong = []

    def add(self, number, stream, wanted):
        counts = self.counts
        counts["streams"] += 1
        counts[f"version {1 + number % 2}"] += 1
        counts["past a Package"] += wanted.has_run
        counts["bytes"] += len(stream)
        counts["bytes of frames"] += wanted.bytes
        counts["bytes of frames before a fault"] += wanted.bytes if wanted.end in FAULTS else 0
        counts[f"end {wanted.end or 'whole'}"] += 1
        for line in wanted.lines:
            counts["lines"] += 1
            counts[" ".join(line.split()[:2])] += 1


def compare(job):
    program, seed, numbers = job
    tally = Tally()
    for number in numbers:
        maker = Maker(seed, number)
        stream = maker.stream()
        wanted = Wanted(stream, maker.cpus)
        tally.add(number, stream, wanted)
        ended = run([program, "frames", "--cpus", str(maker.cpus)], stream)
        if (ended.stdout, ended.stderr, ended.returncode) != (wanted.output, wanted.error, wanted.status):
            tally.wrong.append(number)
    return tally


# Memory


def peak(program, cpus, stream):
    """The greatest resident memory of the program, in bytes, once it has taken a stream that has no fault."""
    with tempfile.TemporaryFile() as output:
        words = [program, "frames", "--cpus", str(cpus)]
        child = subprocess.Popen(words, stdin=subprocess.PIPE, stdout=output, stderr=subprocess.DEVNULL)
        child.stdin.write(stream)
        child.stdin.flush()
        while waiting(child) is False:
            time.sleep(0.002)
        kibibytes = next(
            int(line.split()[1]) for line in open(f"/proc/{child.pid}/status") if line.startswith("VmHWM:")
        )
        child.stdin.close()
        child.wait()
    return 1024 * kibibytes


def waiting(child):
    """Whether it has read all that it was given, and waits for more."""
    left = struct.unpack("i", fcntl.ioctl(child.stdin, termios.FIONREAD, b"\0\0\0\0"))[0]
    if left:
        return False
    state = open(f"/proc/{child.pid}/stat").read().rpartition(") ")[2][0]
    if state == "Z":
        raise SystemExit("the program has ended before its input")
    return state == "S"


def large(version):
    """The largest streams: many pages that are kept and that wait, and the largest Package of single pages, which are
    all owed."""
    most = MOST[version]

    def text(name, fields):
        return encode(1, name, fields, version)

    def package(areas, owed):
        return text("package", {"areas": areas, "owed": owed, "commands": 2 * [(0, 8, 0)]})

    pages = b"".join(text(*page_frame(LOW + page, random.Random(page).randbytes(PAGE))) for page in range(4096))
    advise, discard = text("advise", {}), text("discard", {"pages": []})
    apart = range(LOW, LOW + 2 * most, 2)
    largest = package([(page, 1, 2) for page in apart], [(page, 1) for page in apart])
    yield "4096 pages kept", advise + pages
    yield "4096 pages kept, and 4096 that wait", advise + pages + discard + package([(LOW, 4096, 2)], []) + pages
    yield f"a Package of {most} areas and as many owed pages", advise + discard + largest
    yield "the same without its last byte", advise + discard + largest[:-1]
    half = [(page, 1) for page in range(LOW, HIGH, 2)]
    yield f"a Discard of {len(half)} ranges", advise + text("discard", {"pages": half})
    yield "100,000 frames of no body", advise + 100_000 * text("done", {})


def longest(stream):
    """The bytes of the longest frame of a stream that has no fault."""
    most, at = 0, 0
    while len(stream) - at >= HEADER:
        length = HEADER + struct.unpack_from(">I", stream, at + 8)[0]
        most, at = max(most, length), at + length
    return most


def memory(program, seed, count):
    """Measures, and answers whether all is within bounds."""
    print("\n| stream | pages kept and waiting | peak memory, MiB | without these pages |\n|---|---|---|---|")
    right, worst = True, 0
    for version in (1, 2):
        for name, stream in large(version):
            most, used = Wanted(stream, 2).most, peak(program, 2, stream)
            right &= used <= most * PAGE + SLACK + 2 * longest(stream)
            print(f"| version {version}, {name} | {most} | {used / 2**20:.1f} | {(used - most * PAGE) / 2**20:.1f} |")
    for number in range(count):
        maker = Maker(seed, number)
        stream = maker.stream()
        wanted = Wanted(stream, maker.cpus)
        if wanted.end in FAULTS:
            stream = stream[: wanted.bytes]
        if not stream:
            continue
        over = peak(program, maker.cpus, stream) - wanted.most * PAGE
        worst, right = max(worst, over), right and over <= SLACK
    print(f"| {count} streams, the most of them | | | {worst / 2**20:.1f} |")
    return right


# The table


def table(tally):
    """Prints what was seen, and answers whether it was often enough."""
    counts, right = tally.counts, not tally.wrong
    print("| | |\n|---|---|")
    for name in (
        "streams", "version 1", "version 2", "past a Package", "bytes", "bytes of frames",
        "bytes of frames before a fault", "lines",
    ):
        print(f"| {name} | {counts[name]:,} |")
    right &= 2 * counts["past a Package"] >= counts["streams"] and counts["bytes of frames before a fault"] >= BYTES
    print(f"| streams that are frames and nothing more | {counts['end whole']:,} |")
    wanted = [f"end {fault}" for fault in FAULTS] + ["end truncated"]
    wanted += [f"took {name}" for name in TAKEN] + [f"refused {name}" for name in REFUSALS]
    for name in wanted:
        print(
            f"| {name.replace('end truncated', 'truncated stream').replace('end ', 'stream fault ')} | "
            f"{counts[name]:,} |"
        )
        right &= counts[name] >= OFTEN
    print(f"| streams that differ | {len(tally.wrong):,} |")
    for number in tally.wrong[:10]:
        print(f"differs: stream {number}")
    return right


def main():
    parser = argparse.ArgumentParser(description=__doc__.splitlines()[0])
    parser.add_argument("program")
    parser.add_argument("--streams", type=int, default=120_000)
    parser.add_argument("--seed", type=int, default=1)
    parser.add_argument("--jobs", type=int, default=os.cpu_count())
    parser.add_argument("--no-memory", action="store_true")
    options = parser.parse_args()
    program = os.path.abspath(options.program)
    require(program)
    numbers = range(options.streams)
    jobs = [(program, options.seed, numbers[at : at + 500]) for at in range(0, len(numbers), 500)]
    tally = Tally()
    with multiprocessing.Pool(options.jobs) as pool:
        for part in pool.imap_unordered(compare, jobs):
            tally.counts.update(part.counts)
            tally.wrong += part.wrong
    right = table(tally)
    if not options.no_memory:
        right &= memory(program, options.seed, 500)
    sys.exit(0 if right else 1)


if __name__ == "__main__":
    main()
