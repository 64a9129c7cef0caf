#!/usr/bin/env python3
"""Writes the calls of the model's destination as a log, and has uffd-audit certify it: a kernel may have answered so.

python3 bench/compare/logs.py [SEEDS] [--first SEED] [--profile P ..] [--source] [--without DIFFERENCE] [--keep FOLDER]

`postmig run --steps` says which host call each step is. Those of the destination are the log of a handler, with the
model's answers: the object's first calls, and then one call at a time; between them are the map calls of its guest,
each of which ends when its last message is read. Those of an mremap are a kernel's, in its order: each is read where
the model reads one, and what is left with the model's last. The log must be certified, whatever is found of the
handler, which a script may end in its middle, and differ from the model as kernel_laws says alone. The scripts are
those of `postmig explore`, SEEDS of each profile (20), after which the nodes read until no map call is under way (where
an mremap moves to, its end says alone), without what kernel_laws::a_destination_is_logged leaves out
from `start` on: a dontneed past the model's last address, and, until a dontneed returns, accesses to its pages, other
map calls with a message and an mremap that is done. --source: logs of the source too, which names no thread, as a
handler without UFFD_FEATURE_THREAD_ID (a processor of the model may have two faults unread, a thread of a kernel one).

It is printed how many logs have a run with each difference. --without: with this difference left out of the list,
which some logs must then have: those are the faults, and without any the status is 3. The status is 3 too where
anything else is not as it should be, and 6 where there was no log.
"""

import argparse
import collections
import concurrent.futures
import os
import pathlib
import re
import subprocess
import sys

import shared  # noqa: F401

from page import TOP
from program import PROFILES

POSTMIG = TOP / "postmig"
PAGE = 4096
HEAD = "uffdlog 1\nrecorder model 1\nkernel - - -\npage 4096\nclock log\ncommand -\n"
# What a kernel returns of its features and calls, on the object and on a range in the missing mode or in both modes.
OFFER, CALLS = "0x14d 0x8000000000000003", {"1": "0x13c", "3": "0x17c"}
FEATURES = {"source": "0x4d", "dest": "0x4c"}
OBJECT, BUFFER = "1:5", 0x7F0000000000
MAP_CALL = re.compile(r"cpu (\d+) ((mmap|munmap|mremap|dontneed)\b.*)")
# Where the model's addresses end.
HIGH = 1 << 32
# The words of a script for a protection and a place, with what mmap(2) has for them.
PROTECTIONS, PLACES = {"none": 0, "r": 1, "rw": 3}, {"": 0x22, "fixed": 0x32, "noreplace": 0x100022}
# What is done after a script: each read, and what it asks for.
READS = ("dread", "dact", "sread", "sact") * 16
# The status of a log that has nothing to judge: no message was read, and no page was put.
NOTHING = 6
# How the run of a log may differ from the model, and that of a log with an mremap: kernel_laws, `is_expected`.
LATE, MOVED = "fault-on-its-way", "messages-of-mremap"
DIFFERENCE = re.compile(r"^otherwise than the model: ([a-z-]+) (\d+) ", re.M)


def ending(answer):
    """How a map call ends in a log, by what the model writes of it."""
    word, *rest = answer.split()
    return {"done": "ok", "at": f"ok {' '.join(rest)}", "refused": " ".join(rest)}[word]


class Remap:
    """The messages of an mremap in call, by their number in the model: those of a kernel."""

    def __init__(self, words, count):
        self.addr, self.old, self.new = (-(-int(word, 0) // PAGE) * PAGE for word in words[:3])
        self.target = int(words[words.index("fixed") + 1], 0) if "fixed" in words else None
        self.count, self.read, self.order = count, 0, []

    def unmap(self, start, length):
        return f"unmap {start:#x} {start + length:#x}"

    def next(self, message):
        """What is read where the model reads its next message."""
        kept = min(self.old, self.new)
        tail = self.unmap(self.addr + self.new, self.old - self.new)
        if self.read == 0:
            moved = f"remap {self.addr:#x} {self.target or 0:#x} {kept}"
            late = self.count == 3 or self.count == 2 and message == tail
            self.order = [message, moved, tail][message == tail:] if late else [message]
        elif len(self.order) == self.read:
            self.order.append(message)
        self.read += 1
        if self.read < self.count:
            return self.order[self.read - 1:self.read]
        old = [self.unmap(self.addr, kept)] if any(it.startswith("remap") for it in self.order) else []
        return self.order[self.read - 1:] + old


class Log:
    """The calls of the handler at one node, and the map calls of its guest; as in the model those of mremap too."""

    def __init__(self, node, as_model):
        self.node, self.lines, self.made, self.stores, self.calling = node, [], 0, {}, {}
        self.as_model, self.unread, self.woken = as_model, [], None

    def line(self, text, thread=1):
        self.lines.append(f"{len(self.lines) + 1} 1 {thread} {text}")

    def map_call(self, cpu, text, answer):
        """Of a processor, which is thread `cpu` + 2."""
        if not self.lines:
            self.open()
        name, *words = text.split()
        if answer.startswith("in call"):
            count = int(answer.split()[2])
            self.unread.append([count, Remap(words, count) if name == "mremap" and not self.as_model else None])
        if name == "mmap":
            place, addr = [*words[2:], "", "0"][:2]
            words = [addr, words[0], str(PROTECTIONS[words[1]]), f"{PLACES[place]:#x}"]
        elif name == "mremap":
            flags = ("maymove" in words) + 2 * ("fixed" in words)
            words = [*words[:3], str(flags), words[-1] if flags > 1 else "0"]
        elif name == "dontneed":
            name, words = "madvise", [*words, "4"]
        self.made += 1
        self.line(f"begin {self.made} {name} {' '.join(words)}", int(cpu) + 2)
        self.calling[cpu] = self.made
        if not answer.startswith("in call"):
            self.returns(cpu, answer)

    def returns(self, cpu, answer):
        self.line(f"end {self.calling.pop(cpu)} {ending(answer)}", int(cpu) + 2)

    def call(self, text, answer="ok", message=None):
        self.made += 1
        self.line(f"begin {self.made} {text}")
        if message:
            self.line(f"message {self.made} {message}")
        self.line(f"end {self.made} {answer}")

    def open(self):
        self.call("open syscall 0x800", f"ok {OBJECT}")
        self.call(f"api {OBJECT} 0xaa {FEATURES[self.node]}", f"ok {OFFER}")

    def host_call(self, words, answer):
        """One of a step, after whose line it is."""
        name, *rest = words
        if name == "open" or not self.lines:
            self.open()
        if name == "register":
            self.call(f"register {OBJECT} {' '.join(rest)}", f"ok {CALLS[rest[2]]}")
        elif name == "read":
            message, _, last = answer.removeprefix("read ").partition(", cpu ")
            messages = self.messages(message)
            for message in messages:
                self.call(f"read {OBJECT} 32", "ok 1", message)
            if last:
                self.returns(*last.split(" ", 1))
        elif name == "copy":
            self.call(f"copy {OBJECT} {rest[0]} {BUFFER:#x} {PAGE} 0", f"ok {PAGE}")
        elif name == "zeropage":
            self.call(f"zeropage {OBJECT} {rest[0]} {rest[1]} 0", f"ok {rest[1]}")
        elif name in ("writeprotect", "wake"):
            self.call(f"{name} {OBJECT} {self.woken or ' '.join(rest)}")
            self.woken = None
        elif name not in ("open", "page"):
            raise ValueError(f"a host call that is not known: {' '.join(words)}")

    def messages(self, message):
        """What is read where the model reads this: of an mremap a kernel's messages, whose first says what is woken."""
        words = message.split()
        if words[0] == "fault":
            return [self.fault(words)]
        first = self.unread[0]
        first[0] -= 1
        if not first[0]:
            self.unread.pop(0)
        if first[1] is None:
            return [message]
        messages = first[1].next(message)
        kind, start, *rest = messages[0].split()
        length = int(rest[1], 0) if kind == "remap" else int(rest[0], 0) - int(start, 0)
        self.woken = f"{start} {length}"
        return messages

    def fault(self, words):
        """As it is in a log. The model's fault is that of the first processor that sleeps on the page."""
        is_store = self.stores.pop(int(words[1], 16), False)
        return f"fault {words[1]} {is_store + 2 * (words[2] == 'write-protect')} 0"

    def sleep(self, order):
        page = int(order.split()[3], 0) // PAGE * PAGE
        self.stores.setdefault(page, order.split()[2] == "store")


def logs_of(script, as_model):
    """The logs of the nodes that make calls, from a script's lines and what `run --steps` prints of them."""
    ran = subprocess.run([POSTMIG, "run", "--steps"], input="\n".join(script) + "\n", capture_output=True, text=True,
                         check=True)
    logs, host, last, started = {node: Log(node, as_model) for node in ("source", "dest")}, "source", {}, False
    orders = iter([line for line in script if line and line[0] != "#"])
    for line in ran.stdout.splitlines():
        if line.startswith("> "):
            node, *words = line[2:].split()
            logs[node].host_call(words, answer)
            continue
        answer, order = line, next(orders)
        if answer.startswith("took package"):
            host = "dest"
        started |= answer.startswith("started")
        words, called = order.split(), MAP_CALL.match(order)
        if called and started and answer.startswith(f"cpu {called[1]} "):
            logs[host].map_call(called[1], called[2], answer.split(" ", 2)[2])
        if words[0] == "cpu" and answer.startswith(f"cpu {words[1]} "):
            last[words[1]] = order
        if words[0] in ("cpu", "retry") and answer == f"cpu {words[1]} asleep":
            logs[host].sleep(last[words[1]])
    return {node: HEAD + "\n".join(log.lines) + "\n" for node, log in logs.items() if log.lines}


def range_of(words):
    """The pages of a dontneed, or the one of an access."""
    first = int(words[1], 0) // PAGE
    return range(first, first - -int(words[2], 0) // PAGE if words[0] == "dontneed" else first + 1)


def left_out(script):
    """The lines, from `start` on, that the law leaves out, by what the model answers."""
    ran = subprocess.run([POSTMIG, "run"], input="\n".join(script) + "\n", capture_output=True, text=True, check=True)
    answers, numbers = ran.stdout.splitlines(), [n for n, line in enumerate(script) if line and line[0] != "#"]
    found, last, clearing, started = set(), {}, {}, False
    for number, answer in zip(numbers, answers):
        words = script[number].split()
        started |= answer.startswith("started")
        command = words[2:] if words[0] == "cpu" else last.get(words[1], []) if words[0] == "retry" else []
        if started and command:
            is_access = command[0] in ("load", "store")
            is_done = command[0] == "mremap" and " refused " not in answer
            if command[0] == "dontneed" and range_of(command).stop > HIGH // PAGE:
                found.add(number)
            elif is_access and any(range_of(command)[0] in it for it in clearing.values()):
                found.add(number)
            elif clearing and not is_access and (" in call " in answer or is_done):
                found.add(number)
        if words[0] == "cpu" and answer.startswith(f"cpu {words[1]} "):
            last[words[1]] = command
            if started and command[0] == "dontneed" and " in call " in answer:
                clearing[words[1]] = range_of(command)
        for cpu in re.findall(r", cpu (\d+) ", answer):
            clearing.pop(cpu, None)
    return found


def followed(script):
    """The lines but those that the law leaves out."""
    while found := left_out(script):
        script = [line for number, line in enumerate(script) if number not in found]
    return script


def judge(name, script, nodes, keep, without):
    """How many calls were certified in the logs of a script, by node, and how many runs have each difference; and which
    logs were not certified, or differ otherwise."""
    found, wrong, logs = collections.Counter(), [], logs_of(script, without == MOVED)
    for node in filter(logs.get, nodes):
        log = logs[node]
        ran = subprocess.run([POSTMIG, "audit", "--certified", "--explain"], input=log, capture_output=True, text=True)
        differs = dict(DIFFERENCE.findall(ran.stdout))
        may_differ = {LATE, MOVED if " mremap " in log else LATE} - {without}
        if "\ncertified" in f"\n{ran.stdout}" and differs.keys() <= may_differ:
            found[f"logs of {node}"] += 1
            found[f"calls of {node}"] += log.count(" begin ")
            found[f"map calls of {node}"] += len(re.findall(r" begin \d+ (?:m(?:un)?map|mremap|madvise) ", log))
            found.update(f"with {name} at {node}" for name in differs)
        elif ran.returncode != NOTHING:
            said = " | ".join(ran.stdout.splitlines()[-4:])
            wrong.append(f"{name}, {node}: status {ran.returncode}, {differs}, {said} {ran.stderr.strip()}")
            if keep:
                keep.mkdir(parents=True, exist_ok=True)
                (keep / f"{name}-{node}.log").write_text(log)
    return found, wrong


def main():
    parser = argparse.ArgumentParser(description=__doc__, formatter_class=argparse.RawDescriptionHelpFormatter)
    parser.add_argument("seeds", nargs="?", type=int, default=20)
    parser.add_argument("--first", type=int, default=1)
    parser.add_argument("--profile", nargs="+", default=PROFILES, choices=PROFILES)
    parser.add_argument("--source", action="store_true")
    parser.add_argument("--without", choices=(LATE, MOVED))
    parser.add_argument("--keep", type=pathlib.Path)
    arguments = parser.parse_args()
    nodes = ("dest", "source")[:1 + arguments.source]
    scripts = {}
    for profile in arguments.profile:
        for seed in range(arguments.first, arguments.first + arguments.seeds):
            words = ["explore", "--profile", profile, "--seed", str(seed)]
            made = subprocess.run([POSTMIG, *words], capture_output=True, text=True, check=True)
            scripts[f"{profile}-{seed}"] = followed([*made.stdout.splitlines(), *READS])
    found, wrong = collections.Counter(), []
    given = (nodes, arguments.keep, arguments.without)
    with concurrent.futures.ThreadPoolExecutor(os.cpu_count()) as threads:
        for more, faults in threads.map(lambda one: judge(*one, *given), scripts.items()):
            found, wrong = found + more, wrong + faults
    print(*wrong, sep="\n", end="\n" * bool(wrong))
    counts = ", ".join(f"{name} {count}" for name, count in sorted(found.items()))
    print(f"logs: {len(scripts)} scripts; certified: {counts or 'nothing'}; {len(wrong)} faults")
    if arguments.without:
        return 0 if wrong else 3
    return 3 if wrong else 0 if found else NOTHING


if __name__ == "__main__":
    sys.exit(main())
