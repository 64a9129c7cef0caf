#!/usr/bin/env python3
"""Runs `uffd-audit` on logs that are slow, and looks at what a terminal shows of them.

python3 bench/check/progress.py [--program PATH]

Where standard error is a terminal, it must show how far the command is, and in the end nothing but what the command
writes of the same log where that is quick and no terminal is there; standard output must be the same bytes. Of a
quick log, of one that is typed, and without a terminal nothing may be shown. It runs the proved builds as programs.py
does; or with --program that one alone.
"""

import argparse
import concurrent.futures
import contextlib
import fcntl
import functools
import os
import pathlib
import pty
import re
import signal
import struct
import subprocess
import sys
import tempfile
import termios
import time

import programs

# The seconds for which an input pauses. The command says something after one.
PAUSE = 1.3
# How much of a file may be read at once after a pause, in bytes.
PIECE = 65536

LOG = (programs.CASES / "audit" / "data" / "log").read_bytes()
TRACE = (programs.CASES / "audit-strace-found" / "data" / "trace").read_bytes()
# (a wrong line before the pause, and another after it)
WRONG = LOG.replace(b" started ", b" begun ").replace(b" exit\n", b" gone\n")


def cut(text, first):
    """The first lines of a text, and the others."""
    lines = text.splitlines(keepends=True)
    return [b"".join(lines[:first]), b"".join(lines[first:])]


# Inputs with a pause between two pieces. The last one ends the command before the input ends.
NO_LOG = [b"no ", b"log\nat all\n"]
INPUTS = {"a log": cut(LOG, 9), "a trace": cut(TRACE, 3), "wrong lines": cut(WRONG, 9), "no log": NO_LOG}


def screen(shown):
    """What is on the lines of a terminal in the end."""
    rows, column = [b""], 0
    for piece in re.findall(rb"\n|\r|\x1b\[K|[^\n\r\x1b]+|\x1b", shown):
        if piece == b"\n":
            rows, column = [*rows, b""], 0
        elif piece == b"\r":
            column = 0
        elif piece == b"\x1b[K":
            rows[-1] = rows[-1][:column]
        else:
            rows[-1] = rows[-1][:column].ljust(column) + piece + rows[-1][column + len(piece) :]
            column += len(piece)
    return b"\n".join(rows)


def unread(pipe):
    """The bytes of a pipe that no one has read yet."""
    return struct.unpack("i", fcntl.ioctl(pipe, termios.FIONREAD, bytes(4)))[0]


def feed(child, terminal, pieces):
    """Hands the pieces of an input to a program, and pauses once all but the last were read."""
    pipe = child.stdin
    for number, piece in enumerate(pieces):
        if number:
            while pipe and unread(pipe) and child.poll() is None:
                time.sleep(0.01)
            time.sleep(PAUSE)
        os.write(pipe.fileno() if pipe else terminal, piece)
    if pipe:
        pipe.close()
    else:
        os.write(terminal, b"\x04")


def ran(words, streams, drive, folder=None):
    """How a program ends of which these streams, of 0, 1 and 2, are one terminal, and what that has shown. `drive` gets
    the process and the terminal while it runs."""
    terminal, other = pty.openpty()
    modes = termios.tcgetattr(other)
    modes[3] &= ~termios.ECHO
    termios.tcsetattr(other, termios.TCSANOW, modes)
    with tempfile.TemporaryFile() as output, tempfile.TemporaryFile() as error:
        ends = [other if number in streams else end for number, end in enumerate((subprocess.PIPE, output, error))]
        with subprocess.Popen(words, stdin=ends[0], stdout=ends[1], stderr=ends[2], cwd=folder) as child:
            os.close(other)
            # (a program that has ended reads no more)
            with contextlib.suppress(BrokenPipeError):
                drive(child, terminal)
            shown = programs.shown(terminal)
            os.close(terminal)
        written = [end.seek(0) or end.read() for end in (output, error)]
        return subprocess.CompletedProcess(words, child.returncode, *written), shown


def audited(program, pieces, streams=()):
    return ran([program], streams, functools.partial(feed, pieces=pieces))


def differences(wanted, ended, shown, streams):
    """What differs from a run without a terminal, where these streams are one."""
    left = wanted.stdout * (1 in streams) + wanted.stderr * (2 in streams)
    if ended.returncode != wanted.returncode:
        yield f"status {ended.returncode}, and not {wanted.returncode}"
    if 1 not in streams and ended.stdout != wanted.stdout:
        yield f"standard output is {ended.stdout[:400]}"
    if 2 not in streams and ended.stderr != wanted.stderr:
        yield f"standard error is {ended.stderr[:400]}"
    if screen(shown) != left:
        yield f"the terminal has in the end {screen(shown)[:400]}"


def unsaid(shown, name, total, share=rb""):
    """What is wrong with the lines of progress that a terminal has shown: at least one of the lines that were read so
    far, and then one that all were read and their calls are judged. `share` is what the former has after the number."""
    found = re.findall(rb"\r([^\n\r\x1b]+)\x1b\[K", shown)
    read = [re.fullmatch(name + rb": (\d+) lines read" + share, text) for text in found[:-1]]
    if not read or not all(it and 0 < int(it[1]) <= total for it in read):
        yield f"the terminal showed {found} before the end of {total} lines"
    if found[-1:] != [name + b": %d lines read, judging their calls" % total]:
        yield f"the terminal showed {found[-1:]} at the end of {total} lines"


def slow(program, pieces, streams):
    """A slow input, where these streams are a terminal."""
    text = b"".join(pieces)
    wanted, _ = audited(program, [text])
    ended, shown = audited(program, pieces, streams)
    yield from differences(wanted, ended, shown, streams)
    if 2 not in streams or 0 in streams:
        if b"\r" in shown:
            yield f"the terminal showed {shown[:400]}"
    elif pieces is not NO_LOG:
        yield from unsaid(shown, b"standard input", text.count(b"\n"))
    elif b"\rstandard input: 2 lines read\x1b" not in shown:
        yield f"the terminal showed {shown[:400]}"


def quick(program, pieces):
    """A quick input, with standard error at a terminal."""
    text = b"".join(pieces)
    wanted, _ = audited(program, [text])
    ended, shown = audited(program, [text], [2])
    yield from differences(wanted, ended, shown, [2])
    if b"\r" in shown:
        yield f"the terminal showed {shown[:400]}"


def position(child, file):
    """How many bytes of a file a process has read. 0 if it has not opened it, or has ended."""
    with contextlib.suppress(OSError):
        for end in pathlib.Path(f"/proc/{child.pid}/fd").iterdir():
            if end.exists() and end.samefile(file):
                return int(pathlib.Path(f"/proc/{child.pid}/fdinfo/{end.name}").read_text().split()[1])
    return 0


def hold(child, _, file, places):
    """Stops a program once it has begun to read a file, lets it continue after a pause, and adds how far it had
    read."""
    child.stdin.close()
    while child.poll() is None and not position(child, file):
        time.sleep(0.0005)
    child.send_signal(signal.SIGSTOP)
    if child.poll() is None:
        time.sleep(PAUSE)
    places.append(position(child, file))
    child.send_signal(signal.SIGCONT)


def long_log():
    """A log of 5 MB."""
    head, rest = cut(LOG, 13)
    call = b"1650 70 72 begin %d wake 8:5 0x7f0000000000 0x1000\n1650 70 72 end %d ok\n"
    return head + b"".join(call % (number, number) for number in range(100, 65000)) + rest


def file(program):
    """A file that the program cannot read within a second, since it is stopped."""
    with tempfile.TemporaryDirectory() as folder:
        log, words = pathlib.Path(folder) / "log", [program, "log"]
        text = long_log()
        log.write_bytes(text)
        wanted, _ = ran(words, [], lambda *_: None, folder)
        # (on a machine with much to do it may have read all before it is stopped)
        for _ in range(8):
            places = []
            ended, shown = ran(words, [2], functools.partial(hold, file=log, places=places), folder)
            if 0 < places[0] < len(text):
                break
        else:
            yield "it could not be stopped before it had read all of a file"
            return
        yield from differences(wanted, ended, shown, [2])
        yield from unsaid(shown, b"log", text.count(b"\n"), rb", \d+ % of the file")
        shares = [int(share) for share in re.findall(rb"(\d+) % of the file", shown)]
        if shares and not 100 * places[0] // len(text) <= shares[0] <= 100 * (places[0] + PIECE) // len(text):
            yield f"{shares[0]} % of a file of which {places[0]} bytes of {len(text)} were read"


def jobs():
    """What is tried, by its name."""
    for name, pieces in INPUTS.items():
        yield f"{name}, at once", functools.partial(quick, pieces=pieces)
        for streams in ([2], [1, 2], [1], []):
            yield (
                f"{name}, with streams {streams} at a terminal", functools.partial(slow, pieces=pieces, streams=streams)
            )
    yield "a log that is typed", functools.partial(slow, pieces=INPUTS["a log"], streams=[0, 1, 2])
    yield "a file", file


def main():
    parser = argparse.ArgumentParser(description="Runs uffd-audit on logs that are slow.")
    parser.add_argument(
        "--program", type=pathlib.Path, metavar="PATH", help="a build of the program, in place of the proved ones"
    )
    arguments = parser.parse_args()
    builds = [arguments.program.absolute()] if arguments.program else programs.builds("uffd_audit")
    if not builds:
        sys.exit("progress: there is no proved build: ./postmig prove or rt ci makes one")
    tried = [
        (f"{name}, by {program.name}", functools.partial(job, program)) for program in builds for name, job in jobs()
    ]
    wrong = 0
    # (nearly all of their time they wait)
    with concurrent.futures.ThreadPoolExecutor(len(tried)) as pool:
        for (name, _), faults in zip(tried, pool.map(lambda it: list(it[1]()), tried)):
            for fault in faults:
                print(f"progress: {name}: {fault}")
                wrong += 1
    print(f"progress: {len(tried)} runs, {len(builds)} builds, {wrong} faults")
    sys.exit(1 if wrong else 0)


if __name__ == "__main__":
    main()
