"""Compares a replay with a model's answers: line by line, and the memory at the end byte by byte."""

import pathlib
import re
import subprocess
from collections import Counter
from dataclasses import dataclass, field
from typing import Optional

from . import script
from .differences import kind
from .errors import Finding, NotAScript
from .pages import HIGH, PAGE
from .world import World, replay


@dataclass
class Job:
    """A script with the answers that a model gives. fault: what the model says on standard error, None where that is
    not known. program: the words that start a postmig, or None. implementation: the words that start the program which
    is compared instead of a replay. recipe: of a random script that is yet to be made, its seed, profile and number of
    lines. is_stored: whether the answers are those of a file."""

    name: str
    data: bytes
    settings: object
    answers: list = None
    fault: Optional[str] = ""
    program: list = None
    implementation: list = None
    recipe: tuple = None
    is_stored: bool = False


@dataclass
class Result:
    """counts: by (tag or None, kind of line). differing: (where, line, model, other) of each unexpected thing. shown:
    known ones."""

    name: str
    counts: Counter = field(default_factory=Counter)
    totals: Counter = field(default_factory=Counter)
    checks: Counter = field(default_factory=Counter)
    examples: dict = field(default_factory=dict)
    differing: list = field(default_factory=list)
    shown: list = field(default_factory=list)


def run(words, data):
    done = subprocess.run(words, input=data, capture_output=True)
    return done.stdout.decode(), done.stderr.decode().strip()


def answers_of(program, cpus, data):
    """A model's lines, and its fault."""
    said, fault = run([*program, "run", "--cpus", str(cpus)], data)
    return said.splitlines(), fault


def cpus_of(name):
    """Of a script's file NAME.cpusN.script; 2 where it has no such name."""
    found = re.search(r"\.cpus(\d+)\.", pathlib.Path(name).name)
    return int(found[1]) if found else 2


def loads_of(memory):
    """Loads of all that the guest has, as lines of a transcript."""
    for page, (protection, data) in sorted(memory.items()):
        start = page * PAGE
        if protection == "none":
            yield f"0 load 0x{start:x} 8 => segv protected"
            continue
        held = data or bytes(PAGE)
        for at in range(0, PAGE, 8):
            yield f"0 load 0x{start + at:x} 8 => value 0x{int.from_bytes(held[at:at + 8], 'little'):x}"


def loads_beside(areas):
    """Loads of what lies beside the areas."""
    for start, end, _ in areas[:100]:
        for addr in (start - PAGE, end):
            if 0 < addr < HIGH and not any(first <= addr < last for first, last, _ in areas):
                yield f"0 load 0x{addr:x} 8 => segv unmapped"


def sweep(memory, areas):
    return list(loads_of(memory)) + list(loads_beside(areas))


def checked(program, entries):
    """What `postmig check` says of a transcript: None where it is a flat run, else its line and the entry."""
    said = run([*program, "check"], ("\n".join(entries) + "\n").encode())[0].strip()
    if said == f"ok {len(entries)}":
        return None
    return said, entries[int(said.split()[1])] if said.startswith("wrong") else ""


def implementation_lines(job):
    """The lines of another program, as a replay has them. `# TAG ..` may follow a line."""
    said, fault = run([*job.implementation, "run", "--cpus", str(job.settings.cpus)], job.data)
    lines = iter(said.splitlines())
    for number, line, _ in script.steps(job.data):
        answer = next(lines, None)
        if answer is None:
            raise Finding(f"no answer to line {number}; {fault}")
        text, _, tags = answer.partition(" # ")
        yield number, line, text, tags.split()


class Comparison:
    def __init__(self, job):
        self.job, self.result = job, Result(job.name)
        self.done, self.is_late, self.has_stopped = 0, False, False
        self.program = job.program

    def differ(self, where, line="", model="", other=""):
        self.result.differing.append((where, line, model, other))

    def run(self):
        result, job, fault = self.result, self.job, ""
        result.totals["scripts"] += 1
        self.compare_stored()
        try:
            if job.implementation:
                self.take_lines(implementation_lines(job))
            else:
                self.take_replay()
        except NotAScript as wrong:
            fault = f"line {wrong}: not a script line"
        except Finding as found:
            self.differ(f"step {self.done + 1}", "", self.wanted(self.done), f"finding: {found}")
        if not result.differing and not self.has_stopped:
            self.compare_ends(fault)
        if self.is_late:
            self.excuse_late()
        result.totals["scripts with something unexpected"] += bool(result.differing)
        return result

    def compare_stored(self):
        """Answers of a file must be the program's, where there is one."""
        job = self.job
        if not job.is_stored or not job.program:
            return
        now, _ = answers_of(job.program, job.settings.cpus, job.data)
        if now != job.answers:
            at = next(
                (at for at, pair in enumerate(zip(now, job.answers)) if pair[0] != pair[1]),
                min(len(now), len(job.answers)),
            )
            self.differ("the stored answers", f"answer {at + 1}", "".join(now[at : at + 1]), self.wanted(at))

    def wanted(self, at):
        return self.job.answers[at] if at < len(self.job.answers) else "(nothing)"

    def compare_ends(self, fault):
        if self.job.fault is not None and fault != self.job.fault:
            self.differ("end", "", self.job.fault, fault)
        elif self.done != len(self.job.answers):
            self.differ("end", "", f"{len(self.job.answers)} lines", f"{self.done} lines")

    def take_replay(self):
        with World(self.job.settings) as world:
            try:
                self.take_lines(replay(self.job.data, world))
                if not self.has_stopped:
                    self.compare_memory(world)
            finally:
                self.is_late = world.is_late
                self.result.checks.update(world.record.checks)

    def take_lines(self, lines):
        for number, line, answer, tags in lines:
            if not self.take_line(number, line, self.wanted(self.done), answer, tags):
                self.has_stopped = True
                return
            self.done += 1

    def take_line(self, number, line, model, answer, tags):
        """Counts a line. False where the replay ends, since it cannot be compared any further."""
        found, result = kind(tags, model, answer), self.result
        if found == "unexpected":
            self.differ(number, line, model, answer)
        result.totals["lines"] += 1
        result.totals[found] += 1
        for tag in tags or [None]:
            result.counts[tag, found] += 1
            result.examples.setdefault(tag, f"{self.job.name}:{number}")
        if found == "known":
            result.shown.append((number, line, model, answer))
        return found != "unexpected"

    def compare_memory(self, world):
        """The memory of the kernel at the end must follow from the transcript, of the replay and of the
        model."""
        memory, node = world.memory(), world.running()
        totals = self.result.totals
        totals["migrations that completed"] += world.source.phase == "released"
        totals["guests that ran at the destination"] += world.destination.has_run
        if not self.program:
            return
        loads = sweep(memory, node.guest.host.areas()) if memory else []
        totals["pages compared at the end"] += len(memory)
        model = run([*self.program, "run", "--transcript", "--cpus", str(self.job.settings.cpus)], self.job.data)[
            0
        ].splitlines()
        own = [script.entry(*entry) for entry in world.transcript]
        for whose, entries in (("model", model), ("replay", own)):
            wrong = checked(self.program, entries + loads)
            if wrong:
                self.differ(f"memory, by the transcript of the {whose}", wrong[1], wrong[0])
        totals["scripts whose memory was compared"] += 1

    def excuse_late(self):
        """With --late a dontneed clears later than in the model: what differs after that counts as one difference of
        its own."""
        result = self.result
        if not result.differing:
            return
        result.shown += result.differing
        result.totals["late"] += 1
        result.totals["lines"] -= result.totals["unexpected"]
        result.totals["unexpected"] = 0
        result.counts = Counter({key: count for key, count in result.counts.items() if key[1] != "unexpected"})
        result.differing = []


def compare(job):
    return Comparison(job).run()
