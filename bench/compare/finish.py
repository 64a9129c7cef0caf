#!/usr/bin/env python3
"""Finishes scripts from each of their prefixes, and times the completion of a large migration.

python3 bench/compare/finish.py [--program PATH] [--every N] [--cases FOLDER] [--pages M] [--runs R] [SCRIPT ..]

For each SCRIPT (all of examples/ if none is given; with --cases all scripts of a folder, too) and for the script cut
after each of its lines, or after each Nth: `postmig finish` writes lines, and `postmig run` of the cut script with
these lines after it refuses none of them and ends with a complete migration. A script with a wrong line is cut before
it. With --pages it times, instead, `postmig finish` of a script that stores to M pages, and `postmig run` of the same
script with the lines after it: the least of R runs each. Its status is 1 where one of these does not hold. Run it once
./postmig prove has built the program.
"""

import argparse
import concurrent.futures
import pathlib
import re
import sys
import tempfile

import shared  # noqa: F401

import clock
import page
from program import PROGRAM, file_at, require, run, stored, written

CPUS = re.compile(r"\.cpus(\d+)\.")


def readable(program, script, cpus):
    """The script up to its first wrong line."""
    ended = run([program, "run", "--cpus", cpus], script)
    if ended.returncode != 1:
        return script
    number = int(re.match(rb"line (\d+):", ended.stderr)[1])
    return b"".join(line + b"\n" for line in script.split(b"\n")[: number - 1])


def prefixes(script, every):
    """The script cut after some of its lines, and all of it."""
    ends = [match.end() for match in re.finditer(rb"\n", script)]
    for end in [0, *ends[every - 1 :: every]]:
        yield script[:end]
    if script and not script.endswith(b"\n"):
        yield script


def finish(program, script, cpus):
    """The number of lines that finish a script. Raises ValueError unless they do."""
    lines = written([program, "finish", "--cpus", cpus], script)
    count = lines.count(b"\n") - lines.startswith(b"\n")
    answers = written([program, "run", "--cpus", cpus], script + lines + b"progress\n").splitlines()
    if not answers[-1].startswith(b"progress phase complete "):
        raise ValueError(f"not complete: {answers[-1]}")
    refused = [answer for answer in answers[len(answers) - 1 - count : -1] if answer.startswith(b"refused")]
    if refused:
        raise ValueError(f"refused: {refused[0]}")
    return count


def finish_all(program, path, every):
    """How many prefixes of a script were finished, with how many lines."""
    found = CPUS.search(path.name)
    cpus = found[1] if found else "2"
    if not found and path.parent.name == "examples":
        cpus = "4"
    script = readable(program, path.read_bytes(), cpus)
    count = lines = 0
    for prefix in prefixes(script, every):
        try:
            lines += finish(program, prefix, cpus)
        except ValueError as reason:
            raise ValueError(f"{path}, {len(prefix)} bytes: {reason}") from reason
        count += 1
    return count, lines


def time_pages(program, pages, runs):
    """Times the completion of a migration of this many pages."""
    with tempfile.TemporaryDirectory() as folder:
        script = pathlib.Path(folder) / "script"
        whole = pathlib.Path(folder) / "whole"
        script.write_text("".join(f"{line}\n" for line in stored(pages)))
        lines = written([program, "finish", script])
        whole.write_bytes(script.read_bytes() + lines)
        count = lines.count(b"\n")
        words = ([program, "finish", script], [program, "run", whole])
        finishing, running = clock.least(lambda: [clock.played(it)[0] for it in words], runs)
    print(
        f"{pages} pages, {count} lines: finish {finishing:.2f} s, run of the same lines {running:.2f} s, "
        f"{finishing / running:.2f} times"
    )


def main():
    parser = argparse.ArgumentParser(description=__doc__.splitlines()[0])
    parser.add_argument("--program", default=PROGRAM)
    parser.add_argument("--every", type=int, default=1)
    parser.add_argument("--cases", type=pathlib.Path)
    parser.add_argument("--pages", type=int)
    parser.add_argument("--runs", type=int, default=3)
    parser.add_argument("scripts", nargs="*", type=file_at)
    words = parser.parse_args()
    require(words.program)
    if words.pages:
        time_pages(words.program, words.pages, words.runs)
        return
    paths = words.scripts or sorted((page.TOP / "examples").glob("*.script"))
    if words.cases:
        paths = paths + sorted(words.cases.glob("**/*.script"))
    scripts = prefixes_done = lines = 0
    failed = []
    with concurrent.futures.ThreadPoolExecutor(2) as workers:
        jobs = [workers.submit(finish_all, words.program, path, words.every) for path in paths]
        for job in concurrent.futures.as_completed(jobs):
            try:
                done = job.result()
            except ValueError as reason:
                failed.append(str(reason))
                continue
            scripts += 1
            prefixes_done += done[0]
            lines += done[1]
    print(f"{scripts} scripts, {prefixes_done} prefixes finished, {lines} lines, {len(failed)} failed")
    for reason in failed:
        print(reason)
    sys.exit(1 if failed else 0)


if __name__ == "__main__":
    main()
