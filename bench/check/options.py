#!/usr/bin/env python3
"""Checks that a script which can do nothing ends with another status than 0, and says why in one line.

python3 bench/check/options.py [--program PATH]

Each case is a command line with the status that it must have, and what its last line must have: options of a wrong
form, names of nothing, files that are not there. With a program there are inputs in which nothing is to be compared as
well. Nothing may print a trace of a stack. With --json each line of the output must be a JSON object. The status is 1
where a case ends otherwise.
"""

import argparse
import concurrent.futures
import json
import subprocess

import shared  # noqa: F401

import page
from program import require

# Where no program is asked.
CASES = (
    ("conformance/run --frob", 1, "unrecognized arguments: --frob"),
    ("conformance/run --jobs 0", 1, "'0' is no number from 1 to 256"),
    ("conformance/run --cpus 17", 1, "'17' is no number from 1 to 16"),
    ("conformance/run --program nosuch", 1, "there is no program 'nosuch'"),
    ("conformance/run --program /bin/true", 1, "/bin/true is no postmig"),
    ("conformance/run --host nosuch", 1, "there is no program 'nosuch'"),
    ("conformance/run --host /bin/true", 2, "conformance: not run: "),
    ("conformance/compare", 1, "neither scripts nor --profiles"),
    ("conformance/compare --profiles maps,zzz", 1, "there is no profile 'zzz'"),
    ("conformance/compare --profiles maps --seeds a:b", 1, "'a:b' is no seed and no range FIRST:LAST of seeds"),
    ("conformance/compare --profiles maps --seeds 3:1", 1, "'3:1' is no seed and no range"),
    ("conformance/compare --profiles maps --lines 0", 1, "'0' is no number from 1"),
    ("conformance/compare --impl nosuch x", 1, "there is no program 'nosuch'"),
    ("conformance/handler", 1, "required: PROGRAM"),
    ("conformance/handler nosuch", 1, "there is no program 'nosuch'"),
    ("conformance/handler true --profiles postcopy,urgnet --seeds 1:4", 1, "there is no profile 'urgnet'"),
    ("conformance/handler true --seeds x", 1, "'x' is no seed"),
    ("conformance/handler-test --seeds 2:1", 1, "'2:1' is no seed and no range"),
    ("conformance/test nosuch", 1, "there is no wrong replay 'nosuch'"),
    ("conformance/facts --times 0", 1, "'0' is no number from 1"),
    ("conformance/raw --profiles zzz", 1, "there is no profile 'zzz'"),
    ("conformance/generate --profiles zzz", 1, "there is no profile 'zzz'"),
    ("conformance/minimise nofile true", 1, "nofile: No such file or directory"),
    ("conformance/minimise /dev/null false", 1, "/dev/null: it has no line"),
    ("conformance/minimise examples/fault.script true", 1, "true finds nothing wrong"),
    ("conformance/minimise examples/fault.script nosuch", 1, "nosuch: No such file or directory"),
    ("live/run --slices NaN", 2, "'NaN' is no number from 1 to 32"),
    ("live/test --migrations 0", 2, "'0' is no number from 1"),
    ("live/test --program nosuch", 2, "there is no program 'nosuch'"),
    ("live/storm --jobs 0", 2, "'0' is no number from 1"),
    ("live/planted nosuch", 2, "no case has nosuch in its name"),
    ("live/beside-qemu --runs 0", 2, "'0' is no number from 1"),
    ("live/merge /dev/null /dev/null", 2, "the traces have no step"),
    ("live/merge nofile nofile --cpus 17", 2, "'17' is no number from 1 to 16"),
    ("python3 -B bench/check/links.py --zz", 2, "unrecognized arguments: --zz"),
    ("python3 -B bench/check/commands.py nofile", 1, "nofile: no such file"),
    ("python3 -B bench/check/sentences.py nosuch", 1, "there is no crate nosuch"),
    ("python3 -B bench/compare/finish.py nofile", 1, "nofile: no such file"),
    ("python3 -B bench/compare/streams.py nofile", 1, "there is no "),
    ("python3 -B bench/time/gate.py nosuch", 1, "there is no program nosuch"),
    ("python3 -B bench/time/turns.py nofile nofile", 1, "nofile: no such file"),
)
# Where PROGRAM gives answers. {} is its path.
ASKED = (
    ("conformance/run --program {} nofile", 1, "nofile: No such file or directory"),
    ("conformance/run --program {} .", 1, ".: Is a directory"),
    ("conformance/run --program {} /dev/null", 1, "conformance: no line was replayed"),
    ("conformance/compare --program {} /dev/null", 1, "conformance: no line was replayed"),
    ("conformance/compare --program {} --profiles maps --seeds 1 --lines 5", 0, "5 lines in "),
    ("conformance/raw --program {} /dev/null", 1, "conformance: no line was replayed"),
    ("conformance/compare --json --program {} --profiles maps --seeds 1 --lines 5", 0, '"lines": 5,'),
    ("conformance/compare --json --program {} /dev/null", 1, "conformance: no line was replayed"),
    ("conformance/handler true --json --program {} --seeds 1", 3, '"scripts with findings": '),
    ("conformance/facts --json --times 1", 0, '"failed": 0'),
    ("conformance/handler true --program {} /dev/null", 1, "conformance: no script has run the handler"),
    ("conformance/handler-test --program {} nosuch", 1, "there is no handler 'nosuch'"),
)


def ended(case):
    """What is wrong with the end of a case, if something is."""
    line, status, last = case
    try:
        ran = subprocess.run(
            line.split(), cwd=page.TOP, stdin=subprocess.DEVNULL, capture_output=True, text=True, timeout=120
        )
    except subprocess.TimeoutExpired:
        return f"{line}: no end within two minutes"
    said = (ran.stderr.strip() or ran.stdout.strip()).splitlines()[-1:]
    if "Traceback" in ran.stderr:
        return f"{line}: a trace of the stack: {said}"
    if (
        "--json" in line
        and not all(it.startswith("{") and json.loads(it) for it in ran.stdout.splitlines() if "not run: " not in it)
    ):
        return f"{line}: not JSON: {ran.stdout[:200]}"
    # A machine that cannot replay says so, and that is all it does.
    if ran.returncode == 2 and "conformance: not run: " in ran.stdout:
        return None
    if ran.returncode != status or not said or last not in said[0]:
        return f"{line}: status {ran.returncode}, {said}, and not {status}, {last!r}"
    return None


def main():
    asked = argparse.ArgumentParser(description=__doc__, formatter_class=argparse.RawDescriptionHelpFormatter)
    asked.add_argument("--program")
    program = asked.parse_args().program
    cases = CASES
    if program:
        require(program)
        cases += tuple((line.format(program), status, last) for line, status, last in ASKED)
    with concurrent.futures.ThreadPoolExecutor(4) as pool:
        faults = [it for it in pool.map(ended, cases) if it]
    page.end(faults, f"options: {len(cases)} cases")


if __name__ == "__main__":
    main()
