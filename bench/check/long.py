#!/usr/bin/env python3
"""Runs a migration of more than a hundred thousand lines, and checks its transcript.

python3 bench/check/long.py [--program PATH]

A guest of 128 MiB is migrated after the switch, page by page, and then stores to as many new pages. Each line must have
its answer: no clause says that memory is found for a late line. The run may never hold much more than two guests: what
a released source holds no clause says either, and with it there would be three. Then the transcript must be right to
its end. The status is 1 where one of these fails.
"""

import argparse
import os
import subprocess
import sys
import tempfile

import shared  # noqa: F401

from model.frames import PAGE
from program import LOW, PROGRAM, pushed, require, run

PAGES = 32768
ADDRESSES = [LOW + at * PAGE for at in range(PAGES)]
AFTER = LOW + PAGES * PAGE
# The most memory of the run, in bytes.
MOST = 5 * PAGES * PAGE // 2


def script():
    yield from pushed(PAGES)
    yield from ("end", "deliver", "back", f"cpu 0 mmap {PAGES * PAGE} rw")
    yield from (f"cpu 1 store {AFTER + at * PAGE:#x} 8 {at + 1}" for at in range(PAGES))


def answers():
    yield from (f"cpu 0 at {LOW:#x}", *["cpu 0 done"] * PAGES, "started epoch 1", f"switched discard 0 owed {PAGES}")
    yield from ("took advise", "took discard 0", f"took package owed {PAGES}")
    for addr in ADDRESSES:
        yield from (f"sent page {addr:#x}", f"took page {addr:#x}", f"installed {addr:#x} from {addr:#x}")
    yield from ("end sent", "took end", "took done", f"cpu 0 at {AFTER:#x}", *["cpu 1 done"] * PAGES)


def text(lines):
    return "".join(f"{line}\n" for line in lines).encode()


def measured(words, given):
    """What a program writes, its status, and the most memory that it had, in bytes."""
    with tempfile.TemporaryFile() as source, tempfile.TemporaryFile() as output:
        source.write(given)
        source.seek(0)
        process = subprocess.Popen(words, stdin=source, stdout=output)
        _, status, used = os.wait4(process.pid, 0)
        process.returncode = os.waitstatus_to_exitcode(status)
        output.seek(0)
        return output.read(), process.returncode, used.ru_maxrss * 1024


def main():
    asked = argparse.ArgumentParser(description=__doc__, formatter_class=argparse.RawDescriptionHelpFormatter)
    asked.add_argument("--program", default=str(PROGRAM))
    program = asked.parse_args().program
    require(program)
    given, wanted, faults = text(script()), text(answers()), []
    written, status, most = measured([program, "run"], given)
    if status or written != wanted:
        pairs = enumerate(zip(written.splitlines(), wanted.splitlines()), 1)
        line = next((number for number, (one, other) in pairs if one != other), "none, or the length")
        faults.append(f"run: status {status}; the first line that differs: {line}")
    if most > MOST:
        faults.append(f"run: {most >> 20} MiB, and not at most {MOST >> 20}")
    transcript = run([program, "run", "--transcript"], given).stdout
    checked = run([program, "check"], transcript)
    if checked.stdout != f"ok {2 * PAGES + 2}\n".encode() or checked.returncode:
        faults.append(f"check: status {checked.returncode}, {checked.stdout[:80]}")
    print(*(f"long: {it}" for it in faults), sep="\n", end="\n" if faults else "")
    lines = given.count(b"\n")
    print(
        f"long: a run of {lines:,} lines with {most >> 20} MiB, {2 * PAGES + 2:,} entries checked, {len(faults)} faults"
    )
    return 1 if faults else 0


if __name__ == "__main__":
    sys.exit(main())
