#!/usr/bin/env python3
"""Compares the JSON of `postmig show` with its lines: Python's json reads it, and the same lines follow from it.

python3 bench/check/shown.py [--program PATH]

Each script of examples/ is shown at its end, and after each fifth of its lines. The status is 1 where a text differs.
"""

import argparse
import concurrent.futures
import json

import shared  # noqa: F401

import page
from program import PROGRAM, require, run, written

# The lines of a script between two places that are shown.
STRIDE = 5
# What a frame does with the pages that it lists, by the first word of the frame.
LISTS = {"discard": "discards", "package": "owes", "recv": "needs"}
# The most words of a page that its line has.
MOST = 4


def counts(head, numbers):
    return " ".join([head, *(f"{name} {number}" for name, number in numbers.items())])


def cpu_line(cpu):
    state, waits = cpu["state"], cpu.get("waits_for")
    if state == "idle":
        return f"cpu {cpu['cpu']}: idle"
    if state == "in call":
        return f"cpu {cpu['cpu']}: in call {cpu['messages']}, waits for {waits}, then {cpu['reply']}"
    where = f"asleep on {cpu['page']}" if state == "asleep" else state
    return f"{cpu['command']}: {where}, waits for {waits}"


def queue_lines(queues):
    yield counts("queues", {name: queue["count"] for name, queue in queues.items()})
    for name, queue in queues.items():
        yield from (f"{name} {number}: {line}" for number, line in enumerate(queue["lines"], 1))


def owed_lines(owed):
    yield counts("owed", {"left": owed["left"], "push": len(owed["push"]), "requests": owed["requests"]})
    yield from (f"push {it}" for it in owed["push"])
    for it in owed["pages"]:
        yield f"owed {it['page']} from {it['from']}: {it['copy']}{', requested' if it['requested'] else ''}"


def frame_lines(name, wire):
    for number, frame in enumerate(wire["frames"], 1):
        arrived = f", {wire['arrived']} arrived" if number == 1 and wire["arrived"] else ""
        yield f"{name} {number}: {frame['frame']}, epoch {frame['epoch']}{arrived}"
        yield from (f"{name} {number} {LISTS[frame['frame'].split()[0]]} {it}" for it in frame.get("pages", []))
        yield from (f"{name} {number} hands over {it}" for it in frame.get("commands", []))


def wire_lines(channel, wires):
    yield f"channel {'up' if channel['up'] else 'lost'}, epoch {channel['epoch']}"
    yield from (f"paused {it}" for it in channel["paused"])
    yield counts("wires", {name: len(wire["frames"]) for name, wire in wires.items()})
    yield counts("bytes", {name: wire["bytes"] for name, wire in wires.items()})
    for name, wire in wires.items():
        yield from frame_lines(name, wire)


def page_facts(it):
    yield it["protection"]
    modes = ["missing"] * it["registered_missing"] + ["write-protect"] * it["registered_write_protect"]
    if modes:
        yield " ".join(["registered", *modes])
    if "is" in it:
        yield it["is"]
    if "owed_from" in it:
        yield f"owed from {it['owed_from']}"
    if "words" not in it:
        yield "missing"
        return
    yield "present"
    if it["write_protected"]:
        yield "write-protected"
    words = [f"{addr} has {value}" for addr, value in it["words"].items()]
    yield from words[:MOST] or ["zeros"]
    if len(words) > MOST:
        yield f"and {len(words) - MOST} words more"


def page_lines(pages):
    yield counts("pages", {node: len(mapped) for node, mapped in pages.items()})
    for node, mapped in pages.items():
        yield from (f"{node} page {it['page']}: {', '.join(page_facts(it))}" for it in mapped)


def lines(facts):
    """The lines of the facts of an object, in the order of `all`."""
    yield counts("progress", facts["progress"])
    yield from map(cpu_line, facts.get("cpus", []))
    if "queues" in facts:
        yield from queue_lines(facts["queues"])
    if "owed" in facts:
        yield from owed_lines(facts["owed"])
    if "wires" in facts:
        yield from wire_lines(facts["channel"], facts["wires"])
    if "pages" in facts:
        yield from page_lines(facts["pages"])


def fault(case):
    """What is wrong with what is shown after a line of a script, if something is."""
    program, what, line, script = case
    words = [program, "show", "--at", str(line), what, script]
    object_text = written([*words[:2], "--json", *words[2:]])
    plain = written(words).decode()
    if object_text.count(b"\n") != 1 or not object_text.endswith(b"}\n"):
        return f"{script}:{line}: {what}: not one line: {object_text[:200]}"
    made = "".join(f"{it}\n" for it in lines(json.loads(object_text)))
    if made != plain:
        pairs = zip(made.splitlines(), plain.splitlines())
        first = next((pair for pair in pairs if pair[0] != pair[1]), ("", ""))
        return f"{script}:{line}: {what}: the JSON says {first[0]!r}, and the lines {first[1]!r}"
    return None


def cases(program):
    for script in sorted((page.TOP / "examples").glob("*.script")):
        last = len(script.read_text().splitlines())
        for line in [*range(STRIDE, last, STRIDE), last]:
            yield program, "all", line, script
        for what in ("cpus", "queues", "owed", "wires", "pages"):
            yield program, what, last, script


def main():
    asked = argparse.ArgumentParser(description=__doc__, formatter_class=argparse.RawDescriptionHelpFormatter)
    asked.add_argument("--program", default=PROGRAM)
    program = asked.parse_args().program
    require(program)
    shown = list(cases(program))
    faults = [] if shown else ["examples/ has no script"]
    with concurrent.futures.ThreadPoolExecutor(4) as pool:
        faults += [it for it in pool.map(fault, shown) if it]
    # (a wrong command line is no object)
    if run([program, "show", "--json", "nosuch"]).stdout:
        faults.append("show --json nosuch: something is written")
    page.end(faults, f"shown: {len(shown)} worlds, each as JSON and as lines")


if __name__ == "__main__":
    main()
