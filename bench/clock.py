"""What the scripts that time have in common: runs of a program, the least of several, and the part of
docs/PERFORMANCE.md that they write."""

import os
import subprocess
import sys
import time

import page

# The program of the crate bench, which times calls of the library.
BENCH = page.TOP / "crates" / "bench" / "out" / "bench"


def played(words, script=os.devnull):
    """The seconds of a run of a program on a file, and the most memory that it had, in KiB. What it writes is
    dropped."""
    with open(script) as source, open(os.devnull, "w") as sink:
        begun = time.perf_counter()
        child = subprocess.Popen(words, stdin=source, stdout=sink, env=page.environment())
        _, status, usage = os.wait4(child.pid, 0)
        seconds = time.perf_counter() - begun
    if status:
        sys.exit(f"{words[0]}: status {os.waitstatus_to_exitcode(status)}")
    return seconds, usage.ru_maxrss


def said(*words):
    """What a program writes, without an input."""
    done = subprocess.run(list(map(str, words)), stdin=subprocess.DEVNULL, capture_output=True, env=page.environment())
    if done.returncode:
        sys.exit(f"{' '.join(map(str, words))}: status {done.returncode}\n{done.stderr.decode(errors='replace')}")
    return done.stdout.decode(errors="replace")


def least(measure, runs):
    """Of each number that a measure gives the least of some runs. Cases that one measure takes in turn share a slow
    while."""
    return [min(numbers) for numbers in zip(*[list(measure()) for _ in range(runs)])]


def report(head, lines, put):
    """Prints lines as they come. With --write they are put into a page, after their head."""
    shown = []
    for line in lines:
        print(line, flush=True)
        shown.append(line)
    if sys.argv[1:] == ["--write"]:
        put("\n".join([head, "", *shown]))
