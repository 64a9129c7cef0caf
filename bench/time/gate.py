#!/usr/bin/env python3
"""Runs the gate, and writes what it cost by crate: lines, and the processor seconds of its proof, its tests and its
edits that must fail.

python3 bench/time/gate.py [--write] [COMMAND ..]
python3 bench/time/gate.py --page

Run it in a clean clone on an otherwise idle machine. The command is 'rt ci' where none is given. With --write the
ledger goes to bench/gate.tsv and its summary to docs/PERFORMANCE.md; --page runs nothing, and writes that summary from
the ledger again. The sums are exact, as the kernel has them at the end (user time of all processes); what belongs to
which crate is seen by looking at the running processes five times a second, so that the end of each process is missing.
"""

import collections
import os
import resource
import shutil
import subprocess
import sys
import threading
import time

import shared  # noqa: F401

import page
import tower

LEDGER = page.TOP / "bench" / "gate.tsv"
COLUMNS = (
    "proof", "tests", "first edit", "other edits", "slowest", "sum", "code", "definitions", "lemmas", "answers", "edits"
)
TICKS = os.sysconf("SC_CLK_TCK")
KINDS = ("proof", "tests", "edits")


class Process:
    """A running process: its parent, its words, its folder, and the user seconds of it and its ended children."""

    def __init__(self, number):
        with open(f"/proc/{number}/stat") as file:
            fields = file.read().rpartition(")")[2].split()
        self.parent = int(fields[1])
        self.seconds = (int(fields[11]) + int(fields[13])) / TICKS
        with open(f"/proc/{number}/cmdline", "rb") as file:
            self.words = file.read().decode(errors="replace").split("\0")
        self.folder = os.readlink(f"/proc/{number}/cwd")

    def task(self):
        """What it works for, a crate and a kind, where its words tell."""
        if "--crate-name" not in self.words[:-1]:
            return None
        crate = self.words[self.words.index("--crate-name") + 1]
        if "/rt-edit-" in self.folder:
            return crate, "edits"
        return crate, "tests" if "--test" in self.words else "proof"


def processes():
    found = {}
    for name in os.listdir("/proc"):
        if name.isdigit():
            try:
                found[int(name)] = Process(name)
            except (OSError, IndexError, ValueError):
                pass
    return found


def look(root, seen):
    """Adds what runs below a process: for each task's own process the seconds of it and of all below it."""
    found = processes()
    sums = collections.Counter()
    tasks = {}
    for number, process in found.items():
        top, at = None, number
        while at in found and at != root:
            if found[at].task():
                top = at
            at = found[at].parent
        if at == root and top:
            sums[top] += process.seconds
            tasks[top] = found[top].task()
    for number, task in tasks.items():
        seen[number, task] = max(seen.get((number, task), 0.0), sums[number])


def watched(command):
    """Runs a command, and returns its status, clock and user seconds, and those of each process that worked for a
    task."""
    seen = {}
    begun, before = time.monotonic(), resource.getrusage(resource.RUSAGE_CHILDREN).ru_utime
    child = subprocess.Popen(command, cwd=page.TOP)
    ended = threading.Event()

    def watch():
        while not ended.wait(0.2):
            look(child.pid, seen)

    watcher = threading.Thread(target=watch)
    watcher.start()
    status = child.wait()
    ended.set()
    watcher.join()
    user = resource.getrusage(resource.RUSAGE_CHILDREN).ru_utime - before
    return status, time.monotonic() - begun, user, seen


def count(folder, pattern, wanted=lambda file: True):
    return sum(file.read_text().count("\n") for file in folder.glob(pattern) if file.is_file() and wanted(file))


def lines(crate):
    """The lines of a crate, as wc -l counts them: code, definitions, lemmas and answers; and the number of its edits
    that must fail."""
    folder = page.TOP / "crates" / crate
    own = ("Answers.antt", "Invariants.antt", "Proof.antt")
    return (
        count(folder, "src/**/*.rt"),
        count(folder, "specs/**/*.antt"),
        count(folder, "proofs/**/*.antt", lambda it: it.name not in own),
        count(folder, "proofs/**/*.antt", lambda it: it.name in own),
        len([*folder.glob("must-fail/*.edit")]),
    )


def costs(crate, seen):
    """The processor seconds of a crate: proof, tests, first edit, other edits, the slowest of these, and all of it."""
    proof, tests, edits = ([it for (_, task), it in seen.items() if task == (crate, kind)] for kind in KINDS)
    # (in the order in which they were seen: the first edit is checked from nothing)
    first, others = edits[:1], edits[1:]
    return sum(proof), sum(tests), sum(first), sum(others), max(others, default=0), sum(proof + tests + edits)


def ledger(command, clock, user, seen):
    """The text of the ledger: what was measured where, and a row for each crate."""
    yield f"# command: {command}"
    yield f"# clock minutes: {clock / 60:.0f}"
    yield f"# processor minutes: {user / 60:.0f}"
    yield f"# machine: {page.machine()}"
    yield "\t".join(("crate", *COLUMNS))
    for crate in tower.crates():
        yield "\t".join((crate, *(f"{it:.0f}" for it in (*costs(crate, seen), *lines(crate)))))


def read_ledger():
    """What the ledger says of the measurement, and of each crate its numbers by column."""
    said, rows = {}, {}
    for line in LEDGER.read_text().splitlines():
        key, _, text = line.partition(": ")
        if line.startswith("# "):
            said[key[2:]] = text
        else:
            crate, *numbers = line.split("\t")
            rows[crate] = numbers
    columns = rows.pop("crate")
    return said, {crate: dict(zip(columns, map(int, numbers))) for crate, numbers in rows.items()}


def summary():
    """The part of docs/PERFORMANCE.md: the whole, the dearest crates, and the proof of the program."""
    said, rows = read_ledger()
    dearest = sorted(rows, key=lambda it: -rows[it]["sum"])[:6]
    program = [rows[it]["proof"] for it in tower.below("postmig", "uffd_audit") if it in rows]
    clock = f"{said['clock minutes']} minutes of the clock and " if "clock minutes" in said else ""
    yield (
        f"`{said['command']}` took {clock}{said['processor minutes']} processor minutes (user time), on "
        f"{said['machine']}. "
        "Seconds of user time, of all crates and of the six dearest:"
    )
    yield ""
    yield "| Crate | Proof | Tests | First edit | Other edits | Sum |"
    yield "|---|---|---|---|---|---|"
    shown = ("proof", "tests", "first edit", "other edits", "sum")
    for name, among in (("all", [*rows]), *((f"`{it}`", [it]) for it in dearest)):
        yield f"| {name} | " + " | ".join(f"{sum(rows[it][column] for it in among):,}" for column in shown) + " |"
    yield ""
    yield (
        f"The proofs of the {len(program)} crates of the program, which `./postmig prove` makes, are {sum(program):,} "
        "s of it, "
        f"{sum(program) / 60:.0f} processor minutes."
    )


def main():
    words = sys.argv[1:]
    if words == ["--page"]:
        page.put("the gate", "\n".join(summary()))
        return
    writes = words[:1] == ["--write"]
    command = words[writes:] or ["rt", "ci"]
    if not shutil.which(command[0]):
        sys.exit(f"gate: there is no program {command[0]}")
    status, clock, user, seen = watched(command)
    text = "\n".join(ledger(" ".join(command), clock, user, seen)) + "\n"
    print(text, end="")
    if writes and not status:
        LEDGER.write_text(text)
        page.put("the gate", "\n".join(summary()))
    sys.exit(status)


if __name__ == "__main__":
    main()
