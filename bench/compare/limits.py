#!/usr/bin/env python3
"""Tries the program at the limits that a user meets: long inputs, inputs and outputs of each kind, and little memory.

python3 bench/compare/limits.py [--write]

Run it once ./postmig prove has built the program. It needs 1 GiB of the disk, a gigabyte of memory and some minutes.
Its status is 1 where a case does not end as it must. With --write the tables go to dist/LIMITS.md.
"""

import collections
import os
import pty
import re
import resource
import subprocess
import sys
import tempfile
import termios
import threading
import time

import shared  # noqa: F401

import page
from model.frames import encode
from program import PROGRAM, pushed, require

GIB = 1 << 30
MIB = 1 << 20

# What the inputs of a gigabyte have again and again: each line has 255 bytes and its line feed.
LOAD = b"cpu 0 load 0x10000 8".ljust(255) + b"\n"
ENTRY = b"0 load 0x10000 8 => segv unmapped".ljust(255) + b"\n"
LINES = GIB // len(LOAD)
# The same for frames of version 1: one Advise, and a page again and again.
ADVISE = encode(1, "advise", {}, version=1)
ONE_PAGE = encode(1, "page", {"page": 0x10, "bytes": bytes(range(256)) * 16}, version=1)
FRAMES = GIB // len(ONE_PAGE)

Ended = collections.namedtuple("Ended", "status written said seconds peak")
Case = collections.namedtuple("Case", "name word given taken wanted")


class Written:
    """What was written: how many lines, whether the last one has its end, and the first and the last bytes."""

    def __init__(self):
        self.lines, self.front, self.back = 0, b"", b""

    def take(self, piece):
        self.lines += piece.count(b"\n")
        self.front = self.front or piece[:4096]
        self.back = (self.back + piece)[-4096:]

    def is_whole(self):
        return not self.back or self.back.endswith(b"\n")

    def has(self, text):
        return text in self.back or text in self.front


def read_all(descriptor, written):
    while True:
        try:
            piece = os.read(descriptor, MIB)
        except OSError:
            return
        if not piece:
            return
        written.take(piece)


def peak_of(process):
    """Waits for the end of a process, and gives the most memory that it had, in MiB, as it was seen last."""
    peak = 0
    while process.poll() is None:
        with open(f"/proc/{process.pid}/status") as file:
            found = re.search(r"^VmHWM:\s*(\d+) kB", file.read(), re.M)
        peak = int(found[1]) / 1024 if found else peak
        time.sleep(0.005)
    return peak


def run(words, given, taken=None, space=None):
    """Runs the program. `given` and `taken` are descriptors, or none: without `taken` what is written is read, and -1
    closes either. With `space` it has this many bytes of address space."""

    def begin():
        if space:
            resource.setrlimit(resource.RLIMIT_AS, (space, space))
        resource.setrlimit(resource.RLIMIT_CORE, (0, 0))
        for place, descriptor in ((0, given), (1, taken)):
            if descriptor == -1:
                os.close(place)

    written, said = Written(), Written()
    out, told = os.pipe(), os.pipe()
    begun = time.monotonic()
    process = subprocess.Popen(
        [PROGRAM, *words],
        stdin=subprocess.DEVNULL if given == -1 else given,
        stdout=out[1] if taken in (None, -1) else taken,
        stderr=told[1],
        preexec_fn=begin,
        env=page.environment(),
    )
    os.close(out[1])
    os.close(told[1])
    readers = [threading.Thread(target=read_all, args=it) for it in ((out[0], written), (told[0], said))]
    for it in readers:
        it.start()
    peak = peak_of(process)
    seconds = time.monotonic() - begun
    for it in readers:
        it.join()
    os.close(out[0])
    os.close(told[0])
    return Ended(process.returncode, written, said.front.decode(errors="replace").strip(), seconds, peak)


def pieces(front, unit, count):
    """An input of many equal parts, by pieces of about a megabyte."""
    yield front
    many = max(1, MIB // len(unit))
    for _ in range(count // many):
        yield unit * many
    yield unit * (count % many)


def in_file(folder, parts):
    """A file of these bytes, opened to be read. It has no name any more, and ends when it is closed."""
    with tempfile.NamedTemporaryFile(dir=folder, delete=False) as file:
        for it in parts:
            file.write(it)
    opened_file = os.open(file.name, os.O_RDONLY)
    os.unlink(file.name)
    return opened_file


def in_pipe(parts):
    """A pipe that these bytes come from."""
    source, sink = os.pipe()

    def feed():
        with os.fdopen(sink, "wb", buffering=0) as pipe:
            try:
                for it in parts:
                    rest = memoryview(it)
                    while rest:
                        rest = rest[pipe.write(rest) :]
            except BrokenPipeError:
                pass

    threading.Thread(target=feed, daemon=True).start()
    return source


def in_terminal(text):
    """A terminal at which this is typed, and then the end of the input. The lines are not echoed."""
    master, terminal = pty.openpty()
    modes = termios.tcgetattr(terminal)
    modes[3] &= ~termios.ECHO
    termios.tcsetattr(terminal, termios.TCSANOW, modes)
    os.write(master, text + b"\x04")
    return terminal


def closed_pipe():
    """A pipe that no one reads."""
    source, sink = os.pipe()
    os.close(source)
    return sink


def opened(path, how=os.O_RDONLY):
    return os.open(path, how)


# Standard error of the faults.
LINE, READ, WRITE = "line 1: not a script line", "read fault", "write fault"
SMALL = b"cpu 0 mmap 4096 rw\ncpu 0 store 0x10000 8 7\ncpu 0 load 0x10000 8\n"
CHECKED = b"0 mmap 4096 rw => at 0x10000\n1 load 0x10000 8 => value 0x0\n"


def long_inputs(folder):
    """Inputs of 1 GiB."""
    for word, unit, lines in (("run", LOAD, LINES), ("check", ENTRY, 1)):
        yield Case(
            "1 GiB of lines, in a file",
            word,
            lambda unit=unit: in_file(folder, pieces(b"", unit, LINES)),
            None,
            (0, lines, ""),
        )
        yield Case(
            "1 GiB of lines, from a pipe",
            word,
            lambda unit=unit: in_pipe(pieces(b"", unit, LINES)),
            None,
            (0, lines, ""),
        )
        yield Case(
            "1 GiB without a line feed, in a file",
            word,
            lambda: in_file(folder, pieces(b"", b"#" * MIB, GIB // MIB)),
            None,
            (1, 0, LINE),
        )
        yield Case(
            "1 GiB without a line feed, from a pipe",
            word,
            lambda: in_pipe(pieces(b"", b"#" * MIB, GIB // MIB)),
            None,
            (1, 0, LINE),
        )


def inputs(folder):
    """Each kind of input."""
    for word, text, lines in (("run", SMALL, 3), ("check", CHECKED, 1)):
        yield Case("/dev/zero", word, lambda: opened("/dev/zero"), None, (1, 0, LINE))
        yield Case("/dev/null", word, lambda: opened("/dev/null"), None, (0, 0 if word == "run" else 1, ""))
        yield Case("a terminal", word, lambda text=text: in_terminal(text), None, (0, lines, ""))
        yield Case("a directory", word, lambda: opened("/"), None, (2, 0, READ))
        yield Case("closed", word, lambda: -1, None, (2, 0, READ))
        yield Case("open for writing only", word, lambda: opened("/dev/null", os.O_WRONLY), None, (2, 0, READ))


def outputs(folder):
    """Each kind of output."""
    for word, text in (("run", SMALL), ("check", CHECKED)):
        given = lambda text=text: in_pipe([text])
        yield Case("a full device, /dev/full", word, given, lambda: opened("/dev/full", os.O_WRONLY), (2, 0, WRITE))
        yield Case("closed", word, given, lambda: -1, (2, 0, WRITE))
        yield Case("open for reading only", word, given, lambda: opened("/dev/null"), (2, 0, WRITE))
        yield Case("a pipe that no one reads", word, given, closed_pipe, (2, 0, WRITE))


def streams(folder):
    """The same of frames, where the program reads them."""
    long_stream = lambda: pieces(ADVISE, ONE_PAGE, FRAMES)
    yield Case(
        "1 GiB of frames, in a file", "frames", lambda: in_file(folder, long_stream()), None, (0, 1 + FRAMES, "")
    )
    yield Case("1 GiB of frames, from a pipe", "frames", lambda: in_pipe(long_stream()), None, (0, 1 + FRAMES, ""))
    yield Case("/dev/zero", "frames", lambda: opened("/dev/zero"), None, (1, 0, "stream fault BadTag"))
    yield Case("/dev/null", "frames", lambda: opened("/dev/null"), None, (0, 0, ""))
    yield Case("a directory", "frames", lambda: opened("/"), None, (2, 0, READ))
    yield Case("closed", "frames", lambda: -1, None, (2, 0, READ))
    given = lambda: in_pipe([ADVISE])
    yield Case(
        "output: a full device, /dev/full", "frames", given, lambda: opened("/dev/full", os.O_WRONLY), (2, 0, WRITE)
    )
    yield Case("output: closed", "frames", given, lambda: -1, (2, 0, WRITE))
    yield Case("output: a pipe that no one reads", "frames", given, closed_pipe, (2, 0, WRITE))


def tried(case):
    """Runs a case: its row, and whether it ended as wanted."""
    given, taken = case.given(), case.taken and case.taken()
    ended = run([case.word], given, taken)
    for it in (given, taken):
        if it not in (None, -1):
            os.close(it)
    status, lines, said = case.wanted
    is_right = (
        ended.status == status and ended.said == said and ended.written.lines == lines and ended.written.is_whole()
    )
    # (a short run ends before its memory is looked at)
    cost = f"{ended.seconds:.1f} | {ended.peak:.0f}" if ended.seconds > 1 else " | "
    row = (
        f"| {case.name} | `{case.word}` | {ended.status} | {f'`{ended.said}`' if ended.said else ''} | "
        f"{ended.written.lines:,} | {cost} |"
    )
    print(row if is_right else f"{row} wanted: {case.wanted}", flush=True)
    return row, is_right


def table(cases, rows, failed):
    rows += [
        "| Case | Program | Status | Standard error | Lines written | Seconds | Peak, MiB |",
        "|---|---|---|---|---|---|---|",
    ]
    for case in cases:
        row, is_right = tried(case)
        rows.append(row)
        failed += [] if is_right else [case.name]
    rows.append("")


def migration(pages):
    """The script of a migration whose pages are pushed."""
    yield from pushed(pages)
    yield from ("end", "deliver", "back", "progress")


def least(works, low, high):
    """The least number of kibibytes for which this holds, which does not hold for `low` and does for `high`."""
    while high - low > 1:
        middle = (low + high) // 2
        low, high = (low, middle) if works(middle) else (middle, high)
    return high


def little_memory(folder, rows, failed):
    """A migration of 16,384 pages with twelve sizes of the address space."""
    script = "\n".join(migration(16_384)).encode()
    null = os.open("/dev/null", os.O_RDONLY)
    begins = least(lambda kib: run(["--version"], null, space=kib * 1024).status == 0, 0, 4 * MIB)
    whole = least(lambda kib: run(["run"], in_pipe([script]), space=kib * 1024).status == 0, begins, 4 * MIB)
    rows += [
        f"The least address space with which `--version` runs is {begins:,} KiB, and the whole migration takes "
        f"{whole:,} KiB.\n"
    ]
    rows += [
        "| Address space, KiB | Status | Standard error | Lines written | How far it came |", "|---|---|---|---|---|"
    ]
    between = 0
    # (the addresses of a run are drawn by lot, so that one takes a little more than another)
    most = whole + whole // 10
    for at in range(12):
        size = begins + (most - begins) * at // 11
        ended = run(["run"], in_pipe([script]), space=size * 1024)
        has_begun, is_complete = ended.written.lines > 16_385, ended.written.has(b"took done\n")
        far = "complete" if is_complete else "between the start and completion" if has_begun else "before the start"
        between += ended.status == 4 and has_begun and not is_complete
        is_right = ended.written.is_whole() and (ended.status, ended.said) in ((0, ""), (4, "no memory"))
        row = (
            f"| {size:,} | {ended.status} | {f'`{ended.said}`' if ended.said else ''} | {ended.written.lines:,} | "
            f"{far} |"
        )
        rows.append(row)
        print(row, "" if is_right else "wanted: status 0 or 4, and whole lines", flush=True)
        failed += [] if is_right else [f"{size} KiB"]
    if between < 3:
        failed.append("fewer than three runs end between the start and completion")
    rows.append("")


def main():
    require(PROGRAM)
    has_frames = b"frames" in subprocess.run([PROGRAM, "--help"], capture_output=True, check=True).stdout
    rows, failed = [f"Tried on {page.machine()}.\n"], []
    with tempfile.TemporaryDirectory() as folder:
        for heading, cases in (
            ("Long inputs", long_inputs), ("Inputs", inputs), ("Outputs", outputs), ("Streams of frames", streams)
        ):
            if cases is streams and not has_frames:
                continue
            rows.append(f"## {heading}\n")
            table(cases(folder), rows, failed)
        rows.append("## Little memory\n")
        little_memory(folder, rows, failed)
    if sys.argv[1:] == ["--write"]:
        page.write("LIMITS.md", "\n".join(["# Limits\n", *rows]))
    if failed:
        raise SystemExit(f"not as wanted: {', '.join(failed)}")


if __name__ == "__main__":
    main()
