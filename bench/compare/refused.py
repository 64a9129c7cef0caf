#!/usr/bin/env python3
"""Has the allocator refuse each growth of some scenes in turn, once in a run, by the proved builds of the tests that
play them.

python3 bench/compare/refused.py

`rt ci` leaves these builds, and so does `rt test`. It needs a C compiler, for the library of refusals.py, which is
between the build and malloc. Each run must pass, which means: what returned NoMemory has changed nothing, the same call
again has the answer of its table, so has each call after it, and the transcript is checked. Besides, a run says how
often a call returned NoMemory, or how much of a copy was put:

- `scenes_with_refusals` of migration_tests plays six scenes, from loads and stores to a channel that is lost with three
  pages in flight. Whichever of their growths is refused, exactly one call must return NoMemory. Only a step that is
  refused for another reason, which comes first, answers that: two steps here grow something before they are refused
  (PASSED_OVER).
- `rigs::refusals::each_scene` of thread_tests plays scenes of a rig in one thread: calls, a store that slept, and each
  worker. Whichever of their growths is refused, each scene ends as it does with enough memory: a call that answered
  NoMemory has entered nothing, and is made again; a command that slept waits as before, and is finished; a push that
  was refused is made at the worker's next turn.
- `a_copy_that_wants_memory` of guest_tests copies two pages. All of the copy is put, or its first page alone, or
  nothing, each in some run.
"""

import collections
import concurrent.futures
import re
import sys
import tempfile

import shared  # noqa: F401

import page
from refusals import Refuser

SCENES = ("migration_tests", "refusals::scenes_with_refusals")
RIG = ("thread_tests", "rigs::refusals::each_scene")
COPY = ("guest_tests", "objects::a_copy_that_wants_memory")
# The growths of the scenes after which no call returns NoMemory: of the transcript, for a load of a processor that
# there is not, and of the wire back, for an act while an event is unread.
PASSED_OVER = 2
# No test here has nearly as many growths.
MOST = 20000


def build(crate):
    """The proved build of a crate of tests."""
    program = page.TOP / "crates" / crate / "out" / f"{crate}_tests"
    if not program.is_file():
        sys.exit(f"refused: there is no proved build of {crate}: rt ci or rt test makes one")
    return program


def each_refused(refuser, crate, test):
    """What a test writes with each of its growths refused in turn, as text. Each run must pass."""
    words = [build(crate), test]
    count = refuser.growths(words)
    if not 0 < count < MOST:
        sys.exit(f"refused: {crate} {test} has {count} growths")

    def write(number):
        ended, reached = refuser.run(number, words)
        text = ended.stdout.decode(errors="replace")
        if ended.returncode or not reached:
            sys.exit(
                f"refused: {crate} {test}, growth {number}: status "
                f"{ended.returncode}\n{text}{ended.stderr.decode(errors='replace')}"
            )
        return text

    with concurrent.futures.ThreadPoolExecutor(4) as pool:
        return list(pool.map(write, range(1, count + 1)))


def look_at_scenes(texts):
    """Prints how many growths each scene has; in each run but those that are passed over one call must have answered
    NoMemory."""
    growths, over = collections.Counter(), []
    for number, text in enumerate(texts, 1):
        scenes = {scene: int(count) for scene, count in re.findall(r"^(.*): no memory (\d+)$", text, re.M)}
        growths.update(scenes)
        if sum(scenes.values()) > 1:
            sys.exit(f"refused: growth {number} of the scenes: more than one call answered NoMemory\n{text}")
        if not any(scenes.values()):
            over.append(number)
    if len(growths) != 6 or not all(growths.values()):
        sys.exit(f"refused: not each of six scenes had a growth refused: {dict(growths)}")
    if len(over) > PASSED_OVER:
        sys.exit(f"refused: no call answered NoMemory after growths {over} of the scenes")
    print(
        f"refused: {len(texts)} growths of scenes, each once: "
        + ", ".join(f"{it} {count}" for it, count in growths.items())
        + f", passed over {len(over)}"
    )


def look_at_copies(texts):
    """Prints how much of the copy was put, and in how many runs."""
    puts = collections.Counter(re.findall(r"^copied (\d+)$", "".join(texts), re.M))
    if len(puts) != 3 or sum(puts.values()) != len(texts):
        sys.exit(f"refused: the bytes that copies of two pages have put, and in how many runs: {dict(puts)}")
    print(
        f"refused: {len(texts)} growths around a copy of two pages: " + ", ".join(
            f"{it} bytes put {puts[it]} times" for it in sorted(puts, key=int)
        )
    )


def main():
    with tempfile.TemporaryDirectory() as folder:
        refuser = Refuser(folder)
        look_at_scenes(each_refused(refuser, *SCENES))
        print(f"refused: {len(each_refused(refuser, *RIG))} growths of scenes of a rig, each once")
        look_at_copies(each_refused(refuser, *COPY))


if __name__ == "__main__":
    main()
