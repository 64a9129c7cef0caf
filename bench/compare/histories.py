#!/usr/bin/env python3
"""Compares what postmig history says of small random histories with an exhaustive search for an order.

python3 bench/compare/histories.py [COUNT] [--real COUNT] [--seed SEED] [--program PATH] [--keep FOLDER]

It makes COUNT histories (200) of up to four threads, three words and eleven operations, some of them with a reply that
is drawn, and searches all orders of each that agree with its intervals and threads. A third have a clock that gives
ticks again, and a few a wrong one. Then it does so with small ones of real threads (20), which history/process writes,
most of them with a fault in the memory. The status is 1 where the program says ok and there is no order, or wrong and
there is one; where it writes an order that postmig check does not accept; or where it is undecided although there is an
order, or a counter gave a tick twice. What was undecided otherwise is counted, by its clock and whether a call overlaps
an access. --keep has each history that differs.
"""

import argparse
import collections
import functools
import pathlib
import random
import subprocess
import sys
import tempfile

import shared  # noqa: F401

from program import PROGRAM, require

BASE = 0x10000
PROCESS = pathlib.Path(__file__).resolve().parents[2] / "history" / "out" / "process"
PLANTS = (None, "zero", "old", "lost", "flip")
STATUSES = {0: "ok", 3: "wrong", 5: "undecided"}


class Drawn:
    """A random history: operations as (thread, begin, end, word, address, values)."""

    def __init__(self, draw):
        self.draw = draw
        self.threads, self.words, self.count = draw.randint(1, 4), draw.randint(1, 3), draw.randint(2, 11)
        self.calls, self.overlap, self.swaps = draw.random() < 0.5, draw.random() < 0.2, draw.random() < 0.4
        self.mixed, self.repeats = draw.random() < 0.3, draw.random() < 0.3
        self.fault = draw.choice([0, 0, 0.1, 0.3])
        self.clock = draw.choice(["counter", "counter", "tsc"])
        self.rate = draw.choice([0.8, 0.5, 0.2]) if self.clock == "tsc" else 1
        self.memory, self.values, self.ticks = {}, 0, 2
        self.operations = [(0, 1, 2, "mmap", BASE, None)]
        self.busy = {}
        while len(self.operations) <= self.count or self.busy:
            self.step()
        if draw.random() < 0.1:
            self.misread(draw.randrange(len(self.operations)))
        if draw.random() < 0.3:
            draw.shuffle(self.operations)

    def misread(self, number):
        """Gives an operation other ticks."""
        thread, begin, end, *rest = self.operations[number]
        earlier = max(begin - self.draw.randint(1, 4), 0)
        begin, end = self.draw.choice([(begin, begin), (end, end), (end, begin), (earlier, end)])
        self.operations[number] = (thread, begin, end, *rest)

    def found(self, addr):
        if self.draw.random() < self.fault:
            return self.draw.randint(0, min(self.values, 3) if self.repeats else self.values)
        return self.memory.get(addr, 0)

    def begin(self, thread):
        addr = BASE + 8 * self.draw.randrange(self.words)
        if self.calls and self.draw.random() < 0.2 and (self.overlap or not self.busy):
            self.busy[thread] = [self.ticks, "dontneed", BASE, None, False]
        elif self.draw.random() < 0.5:
            self.values += 1
            swap = self.draw.random() < 0.5 if self.mixed else self.swaps
            value = self.draw.randint(0, 3) if self.repeats else self.values
            self.busy[thread] = [self.ticks, "swap" if swap else "store", addr, value, False]
        else:
            self.busy[thread] = [self.ticks, "load", addr, None, False]

    def take_effect(self, operation):
        operation[4] = True
        _, word, addr, value, _ = operation
        if word == "dontneed":
            self.memory.clear()
        elif word == "load":
            operation[3] = self.found(addr)
        else:
            if word == "swap":
                operation[3] = (value, self.found(addr))
            self.memory[addr] = value

    def step(self):
        self.ticks += self.draw.random() < self.rate
        idle = [it for it in range(self.threads) if it not in self.busy]
        more = len(self.operations) + len(self.busy) <= self.count
        called = any(it[1] == "dontneed" for it in self.busy.values()) and not self.overlap
        if more and idle and not called and (not self.busy or self.draw.random() < 0.55):
            self.begin(self.draw.choice(idle))
            return
        if not self.busy:
            return
        thread = self.draw.choice(list(self.busy))
        operation = self.busy[thread]
        if not operation[4]:
            self.take_effect(operation)
            if self.draw.random() < 0.5:
                return
        begin, word, addr, value, _ = operation
        self.operations.append((thread, begin, self.ticks, word, addr, value))
        del self.busy[thread]


def after(memory, word, addr, value):
    """The memory after an operation, or None where it returns something else."""
    held = dict(memory)
    if word == "load":
        return memory if held.get(addr, 0) == value else None
    if word == "swap":
        if held.get(addr, 0) != value[1]:
            return None
        value = value[0]
    if word in ("store", "swap"):
        return tuple(sorted({**held, addr: value}.items()))
    return ()


def made_by_threads(operations):
    """Of each operation those that its thread made earlier, as bits. None where a thread made two at once."""
    made = [0] * len(operations)
    for one in range(len(operations)):
        for other in range(one):
            thread, begin, end = operations[one][:3]
            its_thread, its_begin, its_end = operations[other][:3]
            if thread != its_thread:
                continue
            # Where all four ticks are one, the lines are as the thread made them.
            if its_end <= begin:
                made[one] |= 1 << other
            elif end <= its_begin:
                made[other] |= 1 << one
            else:
                return None
    return made


def is_given_twice(clock, operations):
    """Whether a counter gave a tick twice."""
    ticks = [tick for it in operations for tick in it[1:3]]
    return clock == "counter" and len(set(ticks)) < len(ticks)


def has_order(operations, clock):
    """Whether there is an order that agrees with the intervals and the threads, in which each reply is that of one
    memory: all of them are tried. An operation took effect at its begin, at its end, or between them; a counter that
    gives a tick twice is wrong."""
    if is_given_twice(clock, operations):
        return False
    made = made_by_threads(operations)
    if made is None or any(end < begin for _, begin, end, *_ in operations):
        return False
    whole = (1 << len(operations)) - 1

    @functools.lru_cache(None)
    def reaches(done, memory):
        if done == whole:
            return True
        first_end = min(it[2] for at, it in enumerate(operations) if not done >> at & 1)
        for at, (_, begin, _, word, addr, value) in enumerate(operations):
            if done >> at & 1 or begin > first_end or made[at] & ~done:
                continue
            left = after(memory, word, addr, value)
            if left is not None and reaches(done | 1 << at, left):
                return True
        return False

    return reaches(0, ())


def operation_of(line):
    """Of a line of a history on one page."""
    thread, begin, end, word, *rest = line.split(" ")
    numbers = [int(it, 0) for it in rest if it[0].isdigit()]
    value = tuple(numbers[2:]) if word == "swap" else numbers[2] if word in ("load", "store") else None
    return int(thread), int(begin), int(end), word, numbers[word == "mmap"], value


def real(seed):
    """The clock and the operations of real threads on one page, most of them with a fault."""
    plant = PLANTS[seed % len(PLANTS)]
    words = ["--seed", seed, "--threads", 2 + seed % 3, "--pages", 1, "--words", 1 + seed % 4, "--count", 120]
    words += ["--calls", seed % 3 * 300, "--pauses", 200]
    words += ["--swaps"] * (seed // 5 % 2) + (["--plant", plant] if plant else [])
    lines = subprocess.run([PROCESS, *map(str, words)], capture_output=True, text=True, check=True).stdout.splitlines()
    return "counter", [operation_of(line) for line in lines[2:-1]]


def line_of(operation):
    thread, begin, end, word, addr, value = operation
    texts = {
        "mmap": lambda: f"mmap 4096 rw fixed {addr:#x} => at {addr:#x}",
        "dontneed": lambda: f"dontneed {addr:#x} 4096 => done",
        "munmap": lambda: f"munmap {addr:#x} 4096 => done",
        "load": lambda: f"load {addr:#x} 8 => value {value:#x}",
        "store": lambda: f"store {addr:#x} 8 {value:#x} => done",
        "swap": lambda: f"swap {addr:#x} 8 {value[0]:#x} => value {value[1]:#x}",
    }
    return f"{thread} {begin} {end} {texts[word]()}\n"


def overlaps(operations):
    """Whether a map call overlaps another operation: no program may do that."""
    calls = [it for it in operations if it[3] in ("mmap", "munmap", "dontneed")]
    return any(call is not it and call[1] <= it[2] and it[1] <= call[2] for call in calls for it in operations)


def judge(program, clock, operations, folder):
    """The status of a history, with what is wrong with the answer, or None."""
    file, order = folder / "history", folder / "order"
    file.write_text(f"history 1\nclock {clock}\n" + "".join(map(line_of, operations)) + f"end {len(operations)}\n")
    ended = subprocess.run([program, "history", "--transcript", order, file], capture_output=True)
    right = has_order(tuple(operations), clock)
    status = ended.returncode
    if status not in STATUSES:
        return status, f"status {status}: {ended.stderr[-200:]}"
    if (status == 0 and not right) or (status == 3 and right):
        return status, f"{STATUSES[status]}, but the search {'finds an order' if right else 'finds none'}"
    if status == 0 and subprocess.run([program, "check", order], capture_output=True).returncode:
        return status, "postmig check does not accept the order"
    if status == 5 and (right or is_given_twice(clock, operations)):
        why = "the search finds an order" if right else "the counter gave a tick twice"
        return status, f"undecided, but {why}"
    return status, None


def compare(asked, kind, histories):
    """How many answers on these histories are not those of the search."""
    differ, made, tally = 0, 0, collections.Counter()
    with tempfile.TemporaryDirectory() as name:
        folder = pathlib.Path(name)
        for number, (clock, operations) in enumerate(histories):
            status, wrong = judge(asked.program, clock, operations, folder)
            made += 1
            tally[STATUSES.get(status, status), clock, status == 5 and overlaps(operations)] += 1
            if wrong:
                differ += 1
                print(f"history {number}, {kind}, of seed {asked.seed}: {wrong}")
                if asked.keep:
                    asked.keep.mkdir(parents=True, exist_ok=True)
                    (asked.keep / f"{asked.seed}-{number}.history").write_bytes((folder / "history").read_bytes())
    counts = sorted(tally.items(), key=str)
    overlaps_too = " (a call overlaps an access)"
    said = ", ".join(f"{word} {clock}{overlaps_too * overlap} {count}" for (word, clock, overlap), count in counts)
    print(f"{made} {kind}: {said}; {differ} differ from the exhaustive search")
    return differ


def main():
    parser = argparse.ArgumentParser(description=__doc__, formatter_class=argparse.RawDescriptionHelpFormatter)
    parser.add_argument("count", type=int, nargs="?", default=200)
    parser.add_argument("--real", type=int, default=20, metavar="COUNT")
    parser.add_argument("--seed", type=int, default=1)
    parser.add_argument("--program", type=pathlib.Path, default=PROGRAM)
    parser.add_argument("--keep", type=pathlib.Path)
    asked = parser.parse_args()
    if asked.count < 1:
        sys.exit("COUNT has to be at least 1")
    require(asked.program)
    subprocess.run(["make", "-s", "-C", PROCESS.parents[1]], check=True)
    draw = random.Random(asked.seed)
    drawn = ((it.clock, it.operations) for it in (Drawn(draw) for _ in range(asked.count)))
    threads = (real(asked.seed * asked.real + number) for number in range(asked.real))
    differ = compare(asked, "drawn", drawn) + compare(asked, "of real threads", threads)
    return bool(differ)


if __name__ == "__main__":
    sys.exit(main())
