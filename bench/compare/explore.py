#!/usr/bin/env python3
"""Explores with many seeds, judges each script by the other commands, and counts what happened in them.

python3 bench/compare/explore.py [SEEDS] [--first SEED] [--lines N] [--cpus C] [--pages M] [--finish] [--sweep]
        [--least N] [--program PATH] [--scripts FILE] [--write]

For each seed from SEED on (1), SEEDS of them (20), and for each profile: `postmig explore` writes a script with its
answers. The same without answers has the same lines; `postmig run` prints the answers; `postmig check` accepts the
transcript of the run; no store has zeros as its lowest byte. Its status is 1 where one of these does not hold. Then it
prints tables of what happened. Run it once ./postmig prove has built the program. With --finish each script ends with
the lines that finish it and a sweep, and its migration must be complete; with --sweep it ends with a sweep, loads of
all pages after the lines that it has without. With --scripts it judges scripts with answers that are in a file, one
after the other, and runs no `postmig explore`. With --write the tables go to dist/EXPLORED.md.

A script shows a destination that installs zeros for every page if one of its loads returns other bytes than 0 that were
installed: there it would return 0 for them. With --least the status is also 1 where fewer than N of 100 scripts of a
profile with post-copy show it.
"""

import argparse
import collections
import concurrent.futures
import os
import re
import sys

import shared  # noqa: F401

import guest
import page
from program import PROFILES, PROGRAM, written

POSTCOPY = PROFILES[2:]
PHASES = ("precopy", "switching", "postcopy")
# The phase that a step begins, and how many frames it sends on the wire to the destination.
BEGINS = {"start": "precopy", "switch": "switching"}
SENDS = {"start": 1, "switch": 2, "send": 1, "sendrun": 1, "push": 1, "end": 1, "resume": 1}
GIVES = " => "
NUMBER = re.compile(r"0x[0-9a-f]+|\b\d+\b")


def split(text):
    """The comment of a script, its lines, and its answers."""
    comment, *rest = text.splitlines()
    pairs = [line.split(GIVES, 1) for line in rest]
    return comment, [pair[0] for pair in pairs], [pair[1] for pair in pairs]


def argument(comment, name):
    return comment.split(f"--{name} ")[1].split()[0]


def judge(program, text):
    """Raises ValueError unless the other commands agree with a script and its answers, and a script that was finished
    is complete."""
    comment, lines, answers = split(text)
    script = "".join(f"{line}\n" for line in [comment, *lines]).encode()
    cpus = ["--cpus", argument(comment, "cpus")]
    *printed, end = written([program, "run", *cpus], script + b"progress\n").decode().splitlines()
    if printed != answers:
        raise ValueError(f"{comment}: run prints other answers")
    if " --finish" in comment and not end.startswith("progress phase complete "):
        raise ValueError(f"{comment}: it ends with {end}")
    transcript = written([program, "run", *cpus, "--transcript"], script)
    verdict = written([program, "check"], transcript).decode()
    if not verdict.startswith("ok "):
        raise ValueError(f"{comment}: check says {verdict}")


def explored(program, seed, profile, options):
    """A script with its answers. Its lines are those that are written without answers, and begin with those that are
    written without a sweep. No value is stored whose lowest byte is 0, so that a load of any width shows it; what does
    not fit into its byte is stored nowhere."""
    words = [program, "explore", "--seed", str(seed), "--profile", profile, *options]
    text = written([*words, "--answers"]).decode()
    lines = split(text)[1]
    if written(words).decode().splitlines()[1:] != lines:
        raise ValueError(f"{' '.join(words)}: other lines with answers")
    if "--sweep" in words:
        front = written([it for it in words if it != "--sweep"]).decode().splitlines()[1:]
        if lines[: len(front)] != front:
            raise ValueError(f"{' '.join(words)}: other lines before the sweep")
    for line in lines:
        if re.search(r" store .*( 0x0|00)$", line) and not line.endswith(" 1 0x100"):
            raise ValueError(f"{' '.join(words)}: zeros are stored: {line}")
    return text


class Course:
    """Follows the answers of one script, and counts what happened."""

    def __init__(self):
        self.events, self.effects, self.refusals = collections.Counter(), collections.Counter(), collections.Counter()
        self.phase, self.resuming, self.order = "idle", set(), 0
        self.forward, self.urgent, self.pushed = [], [], set()

    def send(self, wire, frames):
        wire += range(self.order, self.order + frames)
        self.order += frames

    def take(self, line, answer):
        words = line.split()
        step = f"{words[0]} {words[2]}" if words[0] == "cpu" else words[0]
        self.events["lines"] += 1
        self.events[BETWEEN] += self.phase == "postcopy"
        if answer.startswith("refused "):
            self.refusals[step, answer.split()[1]] += 1
            return
        self.events["made"] += 1
        shape = re.sub(r"^progress .*", "progress ..", NUMBER.sub("N", answer))
        self.effects[step, shape] += 1
        self.follow(words[0], answer)

    def follow(self, step, answer):
        self.phase = BEGINS.get(step, self.phase)
        self.send(self.forward, SENDS.get(step, 0))
        self.send(self.urgent, step == "upush")
        known = {
            "break": self.break_link, "resume": self.resume, "push": self.push, "upush": self.push,
            "deliver": self.deliver, "udeliver": self.deliver_urgent, "back": self.back, "serve": self.serve,
            "install": self.install, "dact": self.resolve,
        }
        if step in known:
            known[step](answer)

    def push(self, answer):
        self.pushed.add(answer.split()[2])

    def break_link(self, answer):
        self.events[f"breaks in {self.phase}"] += 1
        if self.resuming:
            self.events["breaks while resuming"] += 1
        self.forward, self.urgent = [], []

    def resume(self, answer):
        self.events["resumptions"] += 1
        self.resuming = {"source", "dest"}
        self.pushed = set()

    def deliver(self, answer):
        if not answer.startswith("took "):
            self.events["deliveries of a part"] += 1
            return
        self.forward.pop(0)
        if answer.startswith("took package"):
            self.phase = "postcopy"
        if answer == "took resume":
            self.resuming.discard("dest")

    def deliver_urgent(self, answer):
        if not answer.startswith("took "):
            self.events["deliveries of a part"] += 1
            return
        order = self.urgent.pop(0)
        if self.forward and self.forward[0] < order:
            self.events["urgent frames that overtook"] += 1

    def back(self, answer):
        if answer.startswith("took recv"):
            self.resuming.discard("source")
            if answer.startswith("took recv notrun") and self.phase == "switching":
                self.send(self.forward, 2)
        if answer == "took done" or answer.startswith("took recv ended"):
            self.phase = "complete"
            self.events["migrations that completed"] += 1

    def serve(self, answer):
        if answer.split()[1] in self.pushed:
            self.events["requests of pages that were pushed meanwhile"] += 1

    def install(self, answer):
        words = answer.split()
        if words[0] == "dropped":
            self.events["copies dropped: their page was unmapped or cleared"] += 1
        elif words[1] != words[3]:
            self.events["copies installed where their page had moved"] += 1

    def resolve(self, answer):
        if answer.startswith("requested "):
            self.events["faults at owed pages"] += 1


def counted(text):
    """What happened in a script."""
    course, memory = Course(), guest.Guest()
    _, lines, answers = split(text)
    replies = guest.replies(lines, answers)
    for index, (line, answer) in enumerate(zip(lines, answers)):
        course.take(line, answer)
        memory.take(line, answer, replies.get(index, answer))
    course.events.update(memory.counts)
    course.events["scripts"] += 1
    for marks, name in SHOWS.items():
        course.events[name] += memory.counts[guest.MARKED[marks]] > 0
    return course


def add(total, course):
    for mine, its in (
        (total.events, course.events), (total.effects, course.effects), (total.refusals, course.refusals)
    ):
        mine.update(its)


def rows(head, body):
    yield f"| {' | '.join(head)} |"
    yield f"|{'---|' * len(head)}"
    for row in body:
        yield f"| {' | '.join(map(str, row))} |"


BETWEEN = "lines from the package to the completion"
# What a script shows where one of its loads has bytes with these marks.
SHOWN = "scripts that show a destination which installs zeros"
SHOWS = {
    guest.INSTALLED: SHOWN, guest.INSTALLED | guest.MOVED: "scripts that show one which loses the bytes of moved pages"
}
DATA = (guest.LOADS, guest.NOT_ZERO, *guest.MARKED.values(), *SHOWS.values())
EVENTS = (
    "scripts", "lines", "made", BETWEEN, "migrations that completed", *(f"breaks in {phase}" for phase in PHASES),
    "breaks while resuming", "resumptions", "deliveries of a part", "faults at owed pages",
    "urgent frames that overtook", "copies installed where their page had moved",
    "copies dropped: their page was unmapped or cleared", "requests of pages that were pushed meanwhile", *DATA,
)


def events(totals, wanted):
    """The table of what happened by profile."""
    names = [name for name in PROFILES if name in totals]
    yield from rows(("", *names), ((event, *(totals[name].events[event] for name in names)) for event in wanted))


def too_few(totals, least):
    """The profiles with post-copy of which fewer than `least` of 100 scripts show a destination that installs zeros."""
    for name in POSTCOPY:
        if name in totals and 100 * totals[name].events[SHOWN] < least * totals[name].events["scripts"]:
            yield name


def tables(totals):
    """The tables: what happened by profile, then each refusal and each effect of each step."""
    whole = Course()
    for total in totals.values():
        add(whole, total)
    yield from events(totals, EVENTS)
    yield ""
    steps = sorted({step for step, _ in whole.refusals})
    refusals = collections.defaultdict(list)
    for (step, name), count in sorted(whole.refusals.items()):
        refusals[step].append(f"{name} {count}")
    yield from rows(("Step", "Refused"), ((f"`{step}`", ", ".join(refusals[step])) for step in steps))
    yield ""
    effects = collections.defaultdict(list)
    for (step, shape), count in sorted(whole.effects.items()):
        effects[step].append(f"`{shape}` {count}")
    yield from rows(("Step", "Made"), ((f"`{step}`", ", ".join(shapes)) for step, shapes in effects.items()))


def texts_of(file):
    """The scripts of a file, each of which begins with its comment."""
    for text in re.split(r"^(?=# )", open(file).read(), flags=re.MULTILINE):
        if text:
            yield text


def arguments():
    asked = argparse.ArgumentParser(description=__doc__, formatter_class=argparse.RawDescriptionHelpFormatter)
    asked.add_argument("seeds", nargs="?", type=int, default=20)
    asked.add_argument("--first", type=int, default=1)
    asked.add_argument("--program", default=str(PROGRAM))
    for name in ("finish", "sweep", "write"):
        asked.add_argument(f"--{name}", action="store_true")
    asked.add_argument("--scripts")
    asked.add_argument("--least", type=int, default=0)
    for name in ("lines", "cpus", "pages"):
        asked.add_argument(f"--{name}", type=int)
    return asked.parse_args()


def options_of(given):
    """The options that go to each run of the program."""
    numbers = [name for name in ("lines", "cpus", "pages") if getattr(given, name)]
    words = [word for name in numbers for word in (f"--{name}", str(getattr(given, name)))]
    return words + ["--finish"] * given.finish + ["--sweep"] * given.sweep


def courses(given, totals):
    """Adds the course of each script to the totals of its profile. Returns how many were wrong."""
    options, wrong = options_of(given), 0

    def one(case):
        text = case if given.scripts else explored(given.program, *case, options)
        judge(given.program, text)
        return argument(text, "profile"), counted(text)

    seeds = range(given.first, given.first + given.seeds)
    cases = texts_of(given.scripts) if given.scripts else [(seed, name) for name in PROFILES for seed in seeds]
    with concurrent.futures.ThreadPoolExecutor(os.cpu_count()) as pool:
        for future in [pool.submit(one, case) for case in cases]:
            try:
                profile, course = future.result()
                add(totals[profile], course)
            except ValueError as error:
                wrong += 1
                print(error, file=sys.stderr)
    return wrong


def main():
    given, totals = arguments(), collections.defaultdict(Course)
    wrong = courses(given, totals)
    text = "\n".join(tables(totals))
    print(text)
    for name in too_few(totals, given.least):
        wrong += 1
        print(f"{name}: too few scripts show a destination that installs zeros", file=sys.stderr)
    if given.write and wrong == 0:
        page.write("EXPLORED.md", text)
    return 1 if wrong else 0


if __name__ == "__main__":
    sys.exit(main())
