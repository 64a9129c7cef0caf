#!/usr/bin/env python3
"""Calls the scripts of conformance/ and others, and the program, with options in any combination, right and wrong ones.

python3 bench/compare/options.py [CALLS] [--seed N] --program PATH

Each call must end within two minutes, with a status that its page has, and without a trace of the stack; one with a
status other than 0 must say something. The status is 1 where one does not. The values are such that a call which is
right has little to do.
"""

import argparse
import concurrent.futures
import random
import shlex
import subprocess
import tempfile

import shared  # noqa: F401

import page
from program import require

STATUSES = range(7)
NUMBERS = ("0", "1", "3", "-1", "x", "", "1e9", "99999999999999999999", "٣")
VALUES = {
    "--profiles": ("maps", "postcopy", "zzz", "", "maps,zzz", "every,zzz", ",", "postcopy,urgent"),
    "--seeds": ("1", "1:1", "2:1", "a:b", "", ":", "1:2:3", "-1", "x", "18446744073709551615", "18446744073709551616"),
    "--lines": ("1", "5", "0", "-3", "x", ""),
    "--cpus": ("1", "2", "0", "17", "x", ""),
    "--jobs": ("1", "2", "0", "x", ""),
    "--times": ("1", "0", "x"),
    "--host": ("nosuch", "true", "cat", "'", "", "/"),
    "--impl": ("nosuch", "true", "'", ""),
}
FLAGS = (
    "--trace", "--any-kernel", "--minimise", "--show", "--eager", "--late", "--quick", "--frob", "--serial", "--each",
    "--json",
)
# Those of the program.
OWN = (
    "--all", "--strict", "--tap", "--explain", "--transcript", "--answers", "--echo", "--steps", "--json", "--frob",
    "--finish", "--cut", "--",
)
FILES = ("nofile", ".", "/dev/null", "examples/fault.script", "examples/fault.out", "{bytes}", "{empty}")
COMMANDS = ("true", "false", "nosuch", "'", "", "cat", "python3 conformance/handlers/right.py")
# The script, what comes first, and the options with a value that it may be given.
ALIKE = ("--cpus", "--jobs", "--host")
SCRIPTS = (
    ("conformance/run", FILES, (*ALIKE, "--impl")),
    ("conformance/compare", FILES, (*ALIKE, "--impl", "--profiles", "--seeds", "--lines")),
    ("conformance/handler", COMMANDS, (*ALIKE, "--profiles", "--seeds", "--lines")),
    ("conformance/raw", FILES, (*ALIKE, "--profiles", "--seeds", "--lines")),
    ("conformance/facts", ("",), (*ALIKE, "--times")),
    ("conformance/minimise", FILES, ()),
    ("python3 -B bench/check/sentences.py", ("nosuch", "mig_base", "."), ()),
    ("python3 -B bench/compare/finish.py", FILES[:3], ("--jobs",)),
    ("python3 -B examples/embed/compare.py", FILES, ()),
)
WORDS = ("-", "all", "pages", "bash", *FILES)
COMMANDS_OF_IT = (
    "run", "finish", "check", "lint", "audit", "frames", "draw", "show", "explore", "test", "threads", "completion"
)


def calls(count, seed, program, room):
    """Command lines. Where a script would do much, it gets a profile with one seed and few lines after what was
    drawn."""
    chance = random.Random(seed)
    for _ in range(count):
        if chance.random() < 0.3:
            words = [program, chance.choice(COMMANDS_OF_IT), *chance.choices(OWN, k=chance.choice((0, 0, 1, 2)))]
            words += [it.format(**room) for it in chance.choices(WORDS, k=chance.choice((0, 1, 1, 2)))]
            yield words + [
                it
                for name in ("--cpus", "--seeds")
                if chance.random() < 0.2
                for it in (name, chance.choice(VALUES[name]))
            ]
            continue
        script, firsts, options = chance.choice(SCRIPTS)
        words = shlex.split(script)
        words += [it.format(**room) for it in chance.choices(firsts, k=chance.choice((0, 1, 1, 1, 2)))]
        for name in chance.sample(options, k=min(len(options), chance.choice((0, 1, 1, 2)))):
            words += [name, chance.choice(VALUES[name])]
        words += chance.choices(FLAGS, k=chance.choice((0, 0, 0, 1)))
        if script.startswith("conformance/") and "minimise" not in script:
            words += ["--program", chance.choice((program, program, program, "nosuch", "true"))]
            if "--seeds" in options and "--seeds" not in words:
                words += ["--seeds", "1", "--lines", "5"]
            if script.endswith("run") and len(words) < 4:
                words.append("--quick")
        yield words


def ended(words):
    """The status of a call, and what is wrong with its end, if something is."""
    try:
        ran = subprocess.run(words, cwd=page.TOP, stdin=subprocess.DEVNULL, capture_output=True, timeout=120)
    except subprocess.TimeoutExpired:
        return None, f"no end: {shlex.join(words)}"
    said = ran.stdout + ran.stderr
    if b"Traceback" in said or ran.returncode not in STATUSES or ran.returncode and not said.strip():
        return ran.returncode, f"status {ran.returncode}: {shlex.join(words)}: {said[-200:].decode(errors='replace')}"
    return ran.returncode, None


def main():
    asked = argparse.ArgumentParser(description=__doc__, formatter_class=argparse.RawDescriptionHelpFormatter)
    asked.add_argument("calls", nargs="?", type=int, default=2000)
    asked.add_argument("--seed", type=int, default=1)
    asked.add_argument("--program", required=True)
    given = asked.parse_args()
    require(given.program)
    faults, counts = [], {}
    with tempfile.NamedTemporaryFile(suffix=".script") as odd, tempfile.NamedTemporaryFile() as empty:
        odd.write(bytes(range(256)) * 9)
        odd.flush()
        room = {"bytes": odd.name, "empty": empty.name}
        with concurrent.futures.ThreadPoolExecutor(4) as pool:
            for status, fault in pool.map(ended, calls(given.calls, given.seed, given.program, room)):
                counts[status] = counts.get(status, 0) + 1
                faults += [fault] if fault else []
    of_each = ", ".join(f"{count} of status {status}" for status, count in sorted(counts.items(), key=str))
    page.end(faults or ([] if counts else ["no call was made"]), f"options: {given.calls} calls, {of_each}")


if __name__ == "__main__":
    main()
