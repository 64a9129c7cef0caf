#!/usr/bin/env python3
"""Runs migrations in threads many times, and counts what the threads met.

python3 bench/compare/threads.py [--runs N] [--program PATH] [--refusals]

It copies the crates, puts counters into the copy's rig (EDITS), and builds a program that calls `run_threads` N times
(1,000), each with a cut and 1 to 16 processors in turn, and then once with 16 processors that make 2,001 calls each.
Every report must be that of its numbers, and each counter above 0. The build is one without proof, by `rt try`. With
--program it also runs a built postmig (./postmig prove makes one) as often, with the same arguments.

With --program and --refusals it refuses each growth of a run with two processors in turn instead, by the library of
refusals.py: each such run must end, with status 0 and the whole report, or with status 4 and nothing on standard
output.
"""

import argparse
import pathlib
import re
import shutil
import subprocess
import sys
import tempfile
import time

import shared  # noqa: F401

import page
from refusals import Refuser

SOURCES = page.TOP / "bench" / "sources"
# The slowest run that passes, in seconds.
SLOWEST = 10

# What is counted, in the order in which a run prints it.
COUNTERS = (
    "calls that slept at the source",
    "calls that slept at the destination",
    "waits between the switch and the destination's run",
    "steps refused while an event was unread",
    "map calls that waited for their messages",
    "requests",
    "urgent pages",
    "breaks before the destination ran",
    "breaks after it ran",
)

# A file of the copy, what it has once, and what follows that then.
EDITS = (
    ("rig/src/lib.rt", "mod section;", "\npub mod seen;"),
    ("rig/src/rig.rt", "use crate::section::{serve_in, step_in};", "\nuse crate::seen::Seen;"),
    ("rig/src/rig.rt", "    changed: Condvar,", "\n    pub seen: Seen,"),
    ("rig/src/rig.rt", "            changed: Condvar::new(),", "\n            seen: Seen::new(),"),
    ("rig/src/rig.rt", "            changed: _,", "\n            seen: _,"),
    ("rig/src/rig.rt", "            changed: _changed,", "\n            seen: _seen,"),
    (
        "rig/src/rig.rt",
        "        let outcome = step_in(&mut world, step);",
        "\n        self.seen.made(step, &outcome, world.phase());",
    ),
    (
        "rig/src/rig.rt",
        "        let outcome = serve_in(&mut world, epoch);",
        "\n        self.seen.made(Step::Serve, &outcome, world.phase());",
    ),
    (
        "rig/src/rig/commands.rt",
        (
            "        ensures { IfOk result.1 (λ tried. IsToldOf cpu command tried) }\n    "
            "{\n        let mut world = self.world.lock(rt);\n"
            "        for _ in rt.forever() {\n            world.headline();"
        ),
        "\n            self.seen.begins(world.phase());",
    ),
    (
        "rig/src/rig/commands.rt",
        "                Ok(tried) => {",
        "\n                    self.seen.tried(world.phase(), tried, is_in_call(&world, cpu));",
    ),
    ("threads/src/run.rt", "pub struct Run {", "\n    pub counts: [u64; 9],"),
    (
        "threads/src/run.rt",
        "&seats, cpus, calls_with(calls) as usize) {\n        return Err(RunFault::NoMemory);\n    }",
        "\n    let counts = rig.seen.all();",
    ),
    ("threads/src/run.rt", "            fault: None,", "\n            counts,"),
    ("threads/src/run.rt", "            fault: Some(fault),", "\n            counts,"),
    (
        "threads/src/summary.rt",
        (
            "(length run.now.world.transcript) run.now.fault) }\n    ensures err { IfErr result (λ fault. fault ≡ "
            "OutOfMemory) }\n{"
        ),
        (
            '\n    for at in 0..9 {\n        let count = run.counts[at];\n        write!(text, "{count} ")?;\n    }\n '
            '   write!(text, "seen\\n")?;'
        ),
    ),
)


def copied(folder):
    """The sources of the crates in a folder of their own."""
    for name in ("crates.txt", "HANDLES"):
        shutil.copy(page.TOP / name, folder)
    shutil.copytree(page.TOP / "crates", folder / "crates", ignore=shutil.ignore_patterns("out"))
    return folder


def put_counters(folder):
    shutil.copy(SOURCES / "seen.rattle", folder / "crates/rig/src/seen.rt")
    for name, old, added in EDITS:
        file = folder / "crates" / name
        text = file.read_text()
        if text.count(old) != 1:
            sys.exit(f"{name}: not once: {old}")
        file.write_text(text.replace(old, old + added))


def put_program(folder, name, runs, calls):
    """A program that runs so often."""
    source = folder / "crates" / name / "src"
    source.mkdir(parents=True)
    text = (SOURCES / "many_runs.rattle").read_text()
    (source / "main.rt").write_text(text.replace("RUNS", f"{runs}_u32").replace("CALLS", str(calls)))
    with open(folder / "crates.txt", "a") as crates:
        crates.write(f"{name}: threads\n")


def tried(folder, crate, *words):
    """What `rt try` of a crate wrote, and how it ended."""
    done = subprocess.run(["rt", "try", *words], cwd=folder / "crates" / crate, capture_output=True, text=True)
    if "run=ended" not in done.stderr:
        sys.exit(f"{crate}: {done.stderr[-2000:]}")
    return done.stdout


def report_of(cpus, calls):
    """What a run must write."""
    made = 1 + 2 * calls
    return [*(f"cpu {cpu} calls {made}" for cpu in range(cpus)), f"transcript {cpus * made}", "close ok"]


def read_runs(lines, runs, calls, first=1):
    """The counts of all runs, added, and the slowest one's milliseconds. Each report must be as it should."""
    counts, slowest = [0] * len(COUNTERS), 0
    lines = iter(lines)
    for run in range(runs):
        seen = next(lines).split()
        counts = [old + int(new) for old, new in zip(counts, seen)]
        for wanted in report_of(first + run % 16, calls):
            found = next(lines)
            if found != wanted:
                sys.exit(f"run {run}: {found!r}, not {wanted!r}")
        answer = re.fullmatch(r"Ok\(true\) (\d+) ms", next(lines))
        if not answer:
            sys.exit(f"run {run}: no good end")
        slowest = max(slowest, int(answer.group(1)))
    return counts, slowest


def count_runs(folder, runs):
    """Runs with counters, then the long one."""
    put_counters(folder)
    put_program(folder, "many_runs", runs, 8)
    counts, slowest = read_runs(tried(folder, "many_runs", "--seconds", "600").splitlines(), runs, 8)
    print(
        f"{runs} runs with a cut, 1 to 16 processors in turn, on {page.machine()}: all close ok, the slowest in "
        f"{slowest} ms"
    )
    for count, what in zip(counts, COUNTERS):
        print(f"{count:10,} {what}")
    put_program(folder, "long_run", 1, 1000)
    text = (folder / "crates/long_run/src/main.rt").read_text().replace("1 + (run % 16) as u8", "16")
    (folder / "crates/long_run/src/main.rt").write_text(text)
    _, longest = read_runs(tried(folder, "long_run", "--seconds", "600").splitlines(), 1, 1000, 16)
    print(f"16 processors that make 2,001 calls each: close ok in {longest} ms")
    if 0 in counts or max(slowest, longest) > SLOWEST * 1000:
        sys.exit("a count is 0, or a run was too slow")


def run_program(program, runs):
    """The built program as often, in a process for each run."""
    slowest = 0
    for run in range(runs):
        cpus = 1 + run % 16
        begun = time.perf_counter()
        done = subprocess.run(
            [program, "threads", "--cpus", str(cpus), "--cut"], capture_output=True, text=True, timeout=60
        )
        slowest = max(slowest, time.perf_counter() - begun)
        if done.returncode or done.stdout.splitlines() != report_of(cpus, 8):
            sys.exit(f"{cpus} processors: status {done.returncode}\n{done.stdout}{done.stderr}")
    begun = time.perf_counter()
    done = subprocess.run(
        [program, "threads", "--cpus", "16", "--calls", "1000", "--cut"], capture_output=True, text=True, timeout=60
    )
    longest = time.perf_counter() - begun
    if done.returncode or done.stdout.splitlines() != report_of(16, 1000):
        sys.exit(f"1000 calls: status {done.returncode}\n{done.stdout}{done.stderr}")
    print(f"{program}: {runs} runs, the slowest in {slowest * 1000:.0f} ms; the long one in {longest * 1000:.0f} ms")
    if max(slowest, longest) > SLOWEST:
        sys.exit("a run was too slow")


def refuse(program):
    """Refuses each growth of a run with two processors in turn: the run ends, with the whole report, or with none and
    status 4."""
    ended, whole = {0: 0, 4: 0}, "".join(f"{line}\n" for line in report_of(2, 8)).encode()
    with tempfile.TemporaryDirectory(prefix="threads-") as place:
        refuser = Refuser(place)
        # (how many growths a run has differs from one to the next)
        for number in range(1, 10 ** 6):
            done, reached = refuser.run(number, [program, "threads", "--cut"])
            if (done.returncode, done.stdout) not in ((0, whole), (4, b"")):
                sys.exit(f"growth {number}: status {done.returncode}\n{done.stdout.decode()}{done.stderr.decode()}")
            if not reached:
                break
            ended[done.returncode] += 1
    print(
        f"{number - 1} growths of a run with two processors, each refused once: {ended[4]} times no memory, "
        f"{ended[0]} times the whole report"
    )


def asked():
    parser = argparse.ArgumentParser(
        description="Runs migrations in threads many times, and counts what the threads met."
    )
    parser.add_argument("--runs", type=int, default=1000, metavar="N", help="how many runs")
    parser.add_argument("--program", metavar="PATH", help="a built postmig, which is run as often")
    parser.add_argument(
        "--refusals", action="store_true", help="refuses each growth of a run of the program in turn instead"
    )
    return parser.parse_args()


def main():
    arguments = asked()
    if arguments.refusals:
        refuse(arguments.program)
        return
    with tempfile.TemporaryDirectory(prefix="threads-") as place:
        count_runs(copied(pathlib.Path(place)), arguments.runs)
    if arguments.program:
        run_program(arguments.program, arguments.runs)


if __name__ == "__main__":
    main()
