#!/usr/bin/env python3
"""Joins the histories of a source and of a destination: live/histories.py SOURCE DESTINATION > FILE

They are files of `live --history`. What `postmig history FILE` says of them is said of the guest's memory: whether
one flat memory explains all that its threads have loaded, at both places. Both clocks must be one: the two processes
run on one host, and in one time namespace. The status is 2 where a file cannot be read.
"""

import os
import re
import subprocess
import sys

import merging

HEAD = ["history 1\n", "clock tsc\n"]
END = re.compile(r"end (\d{1,18})\n$")
# What `postmig history` ends with: docs/HISTORY.md.
KEPT, WRONG, UNDECIDED = 0, 3, 5
# Lines of its output that are shown.
MOST_SHOWN = 6


class Unreadable(Exception):
    """A file that is not a history of live."""


def read(name):
    """The lines of operations, and how many were written: None where that is not said, since the program was killed."""
    try:
        with open(name, encoding="ascii") as file:
            lines = file.readlines()
    except (OSError, UnicodeDecodeError) as error:
        raise Unreadable(f"{name}: {getattr(error, 'strerror', None) or error}") from None
    if lines[:2] != HEAD:
        raise Unreadable(f"{name}: not a history of live")
    end = END.match(lines[-1])
    return (lines[2:-1], int(end[1])) if end else (lines[2:], None)


def join(source, dest):
    """The lines of both. Where one lacks its end, so does this: it is no whole history then."""
    (before, made), (after, made_after) = read(source), read(dest)
    end = [] if None in (made, made_after) else [f"end {made + made_after}\n"]
    return [*HEAD, *before, *after, *end]


class Verdict:
    """What `postmig history` says of a history, by its lines. NoJudge without a proved program."""

    def __init__(self, program, lines):
        environment = {**os.environ, "POSTMIG_PROVED_ONLY": "1"}
        command = [program, "history", "--explain"]
        done = subprocess.run(command, input="".join(lines), capture_output=True, text=True, env=environment)
        if "no proved build" in done.stderr:
            raise merging.NoJudge(done.stderr.strip())
        self.status, self.said = done.returncode, (done.stdout + done.stderr).splitlines()
        self.operations = len(lines) - len(HEAD) - 1
        self.kinds = sorted({found[1] for found in map(re.compile(r"-:\d+: ([a-z-]+): ").match, self.said) if found})

    def wrong(self):
        """What is wrong, or None."""
        if self.status == KEPT and self.said == [f"ok {self.operations}"]:
            return None
        return "\n  ".join([f"the guest's history, status {self.status}:", *self.said[:MOST_SHOWN]])


def main():
    if len(sys.argv) != 3:
        sys.exit(__doc__.splitlines()[0])
    try:
        sys.stdout.writelines(join(*sys.argv[1:]))
    except Unreadable as fault:
        print(f"histories: {fault}", file=sys.stderr)
        return 2
    return 0


if __name__ == "__main__":
    sys.exit(main())
