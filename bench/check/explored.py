#!/usr/bin/env python3
"""Has bench/compare/explore.py judge a few scripts of each profile, among them those at the limits of what `postmig
explore` takes.

python3 bench/check/explored.py [--program PATH]
"""

import argparse
import subprocess
import sys

import shared  # noqa: F401

import page
from program import PROGRAM, require, written

SCRIPT = page.TOP / "bench" / "compare" / "explore.py"
# The arguments of each run of the script, after the number of seeds.
RUNS = (
    ("3", "--lines", "200"),
    ("2", "--finish"),
    ("1", "--sweep"),
    ("1", "--cpus", "1", "--pages", "1", "--first", "0"),
    ("1", "--cpus", "16", "--pages", "4096", "--first", str(2**64 - 1)),
    ("1", "--cpus", "16", "--pages", "1"),
    ("1", "--cpus", "1", "--pages", "4096"),
)


def has_one_text(program):
    """Whether a seed gives one text, another seed another one, and a sweep more lines."""
    explore = [program, "explore", "--lines", "100", "--seed"]
    seven, again, eight, swept = (
        written([*explore, *words]).splitlines()[1:] for words in (["7"], ["7"], ["8"], ["7", "--sweep"])
    )
    return seven == again and seven != eight and len(swept) > len(seven) == 100


def main():
    asked = argparse.ArgumentParser(description=__doc__, formatter_class=argparse.RawDescriptionHelpFormatter)
    asked.add_argument("--program", default=str(PROGRAM))
    program = asked.parse_args().program
    require(program)
    wrong = 0 if has_one_text(program) else 1
    if wrong:
        print("explored: a seed gives two texts, two seeds give one, or a sweep has no lines", file=sys.stderr)
    for words in RUNS:
        ended = subprocess.run([sys.executable, "-B", SCRIPT, *words, "--program", program], stdout=subprocess.DEVNULL)
        wrong += ended.returncode != 0
    print(f"explored: {len(RUNS)} runs, {wrong} faults")
    return 1 if wrong else 0


if __name__ == "__main__":
    sys.exit(main())
