#!/usr/bin/env python3
"""Has the allocator refuse each growth in turn, once in a run: of the program on each script of examples/, and of the
tests.

python3 bench/compare/refusals.py [CRATE ..]

Run it once ./postmig prove has built the program, and `rt test` the tests of the crates: migration_tests and
guest_tests where none is named. It needs a C compiler, for a library between the program and malloc.

- The program ends with status 4 and `no memory`, and has written whole lines, which are the first of the script's
  output: the step that needed memory returned NoMemory. Where it ends with status 0 instead, with all of the output,
  the refusal was passed over: std's `collect` asks for the room of all items at first, and where that is refused for
  the room of each as it comes. Those are counted.
- A test makes the step that returned NoMemory once more, and wants the answer that its table has, also of all steps
  after it. It passes whichever growth is refused. Of a test with many growths those that are tried are spread evenly.
"""

import concurrent.futures
import os
import pathlib
import re
import subprocess
import sys
import tempfile

import shared  # noqa: F401

import page
from program import PROGRAM, require

SHIM = page.TOP / "bench" / "sources" / "refuse_growth.c"
TESTS = ("migration_tests", "guest_tests")
# How many growths of one test are tried at most.
MOST = 1000


class Refuser:
    """Runs programs whose Nth growth is refused."""

    def __init__(self, folder):
        self.folder = pathlib.Path(folder)
        self.library = self.folder / "refuse.so"
        subprocess.run(
            ["cc", "-O2", "-Wall", "-Wextra", "-Werror", "-shared", "-fPIC", "-o", self.library, SHIM], check=True
        )

    def run(self, number, words, given=b""):
        """The run, and whether it reached its Nth growth."""
        told = self.folder / f"{os.urandom(8).hex()}.told"
        environment = {**os.environ, "LD_PRELOAD": str(self.library), "REFUSED": str(number), "REFUSED_TOLD": str(told)}
        ended = subprocess.run(words, input=given, capture_output=True, env=environment, timeout=120)
        reached = told.exists()
        told.unlink(missing_ok=True)
        return ended, reached

    def growths(self, words, given=b""):
        """How many growths a run has where none is refused."""
        least, most = 0, 1
        while self.run(most, words, given)[1]:
            least, most = most, most * 4
        while most - least > 1:
            middle = (least + most) // 2
            least, most = (middle, most) if self.run(middle, words, given)[1] else (least, middle)
        return least


def numbers(count):
    """The numbers of the growths that are tried, of this many."""
    if count <= MOST:
        return range(1, count + 1)
    return sorted({1 + at * (count - 1) // (MOST - 1) for at in range(MOST)})


PASSED_OVER = "passed over"


def wrong_run(refuser, number, script, output):
    """What is wrong with a run of a script whose Nth growth is refused, or none."""
    ended, reached = refuser.run(number, [PROGRAM, "run"], script)
    written = ended.stdout
    if not reached:
        return "it did not come so far"
    if (ended.returncode, ended.stderr, written) == (0, b"", output):
        return PASSED_OVER
    if ended.returncode != 4 or ended.stderr != b"no memory\n":
        return f"status {ended.returncode}, {ended.stderr.decode(errors='replace').strip()!r}"
    if not output.startswith(written) or (written and not written.endswith(b"\n")):
        return f"wrote {written[-80:]!r}"
    return None


def wrong_test(refuser, number, words):
    ended, reached = refuser.run(number, words)
    if not reached:
        return "it did not come so far"
    if ended.returncode:
        return f"status {ended.returncode}, {ended.stderr.decode(errors='replace').strip()[-200:]!r}"
    return None


def tell(name, tried, count, pool, look):
    """Tries growths, and tells what is wrong. How many are."""
    found = list(zip(tried, pool.map(look, tried)))
    wrong = [it for it in found if it[1] not in (None, PASSED_OVER)]
    over = [number for number, it in found if it == PASSED_OVER]
    passed_over = f", {len(over)} passed over ({', '.join(map(str, over))})" if over else ""
    print(f"{name}: {count} growths, {len(tried)} refused in turn{passed_over}, {len(wrong)} wrong", flush=True)
    for number, it in wrong[:5]:
        print(f"  growth {number}: {it}")
    return len(wrong)


def try_scripts(refuser, pool):
    failed = 0
    for file in sorted((page.TOP / "examples").glob("*.script")):
        script, output = file.read_bytes(), file.with_suffix(".out").read_bytes()
        count = refuser.growths([PROGRAM, "run"], script)
        failed += tell(file.name, numbers(count), count, pool, lambda it: wrong_run(refuser, it, script, output))
    return failed


def try_tests(refuser, pool, crate):
    program = page.TOP / "crates" / crate / "out" / f"{crate}_tests"
    listed = subprocess.run([program, "--list"], capture_output=True, text=True, check=True).stdout
    failed = 0
    for test in re.findall(r"^(\S+): test$", listed, re.M):
        words = [program, test]
        subprocess.run(words, capture_output=True, check=True)
        count = refuser.growths(words)
        failed += tell(f"{crate} {test}", numbers(count), count, pool, lambda it: wrong_test(refuser, it, words))
    return failed


def main():
    crates = sys.argv[1:] or TESTS
    require(PROGRAM, *(page.TOP / "crates" / it / "out" / f"{it}_tests" for it in crates))
    with tempfile.TemporaryDirectory() as folder, concurrent.futures.ThreadPoolExecutor(2) as pool:
        refuser = Refuser(folder)
        failed = try_scripts(refuser, pool)
        for crate in crates:
            failed += try_tests(refuser, pool, crate)
    if failed:
        raise SystemExit(f"{failed} runs went wrong")


if __name__ == "__main__":
    main()
