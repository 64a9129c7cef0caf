"""Replays with nothing arranged. The lines are then not the model's; what is asked is whether the guest saw one flat
memory.

The commands that took effect, and loads of all memory at the end, are given to `postmig check`. Where they are not a
flat run, the other orders of the calls that were in progress at the same time are tried."""

from collections import Counter
from dataclasses import dataclass, field

from . import script
from .comparison import checked, sweep
from .errors import Finding, NotAScript
from .raw_nodes import LogEntry, RawWorld
from .world import replay

MOST_ORDERS = 400


@dataclass
class RawResult:
    """said: each line with its answer. differing: (entry that no flat run has, what `check` says, how many orders were
    tried)."""

    name: str
    totals: Counter = field(default_factory=Counter)
    differing: list = field(default_factory=list)
    said: list = field(default_factory=list)


def wrong_entry(program, log, loads):
    """What `check` says of the transcript, or None where it is a flat run."""
    entries = [script.entry(*logged.entry) for logged in sorted(log, key=lambda logged: logged.at)]
    return checked(program, entries + loads)


def groups_of(log):
    """The calls that took several steps, in groups of which each was in progress with another."""
    groups = []
    for call in sorted((logged for logged in log if logged.first < logged.last), key=lambda logged: logged.first):
        if groups and call.first <= max(other.last for other in groups[-1]):
            groups[-1].append(call)
        else:
            groups.append([call])
    return groups


def ways(items):
    """The orders of entries in which none comes before one that ended before it began: at most MOST_ORDERS."""
    found, open_ways = [], [((), tuple(items))]
    while open_ways and len(found) < MOST_ORDERS:
        done, rest = open_ways.pop()
        if not rest:
            found.append(done)
        for item in reversed(rest):
            if all(other is item or other.last >= item.first for other in rest):
                open_ways.append(((*done, item), tuple(other for other in rest if other is not item)))
    return found


def orders(log):
    """The log with the entries of one group in each other order that is possible."""
    for group in groups_of(log):
        low, high = min(call.first for call in group), max(call.last for call in group)
        inside = sorted((logged for logged in log if low <= logged.at <= high), key=lambda logged: logged.at)
        outside = [logged for logged in log if not low <= logged.at <= high]
        for way in ways(inside):
            yield outside + [
                LogEntry(logged.first, logged.last, low + at / 1000, logged.entry) for at, logged in enumerate(way)
            ]


def judge(job, world, result):
    """Whether the guest of an ended replay saw one flat memory."""
    memory = world.memory()
    guest = world.running().guest
    areas = guest.host.areas() if guest else []
    loads = sweep(memory, areas) + world.loads_beside_log(areas)
    result.totals["entries and loads checked"] += len(world.log) + len(loads)
    wrong = wrong_entry(job.program, world.log, loads)
    if not wrong:
        result.totals["one flat memory"] += 1
        return
    tried = 0
    for tried, log in enumerate(orders(world.log), 1):
        if not wrong_entry(job.program, log, loads):
            result.totals["one flat memory, in another order of calls at the same time"] += 1
            return
    result.differing.append((wrong[1], wrong[0], f"{tried} other orders tried"))


def replay_raw(job):
    """Replays one script with nothing arranged."""
    result = RawResult(job.name)
    job.settings.late = True
    with RawWorld(job.settings) as world:
        try:
            for _, line, answer, _ in replay(job.data, world):
                result.said.append(f"{line} -> {answer}")
                result.totals["skipped lines"] += answer == "refused Skipped"
            judge(job, world, result)
        except NotAScript:
            result.totals["not scripts"] += 1
        except Finding as found:
            result.differing.append((f"line {len(result.said) + 1}", str(found)[:200], ""))
    result.totals.update(world.record.checks)
    result.totals["lines"] += len(result.said)
    if result.differing and world.record.checks["dontneed in several steps"]:
        result.differing = []
        result.totals["not decided: a dontneed took several steps"] += 1
    result.totals["scripts"] += 1
    result.totals["scripts that are not one flat memory"] += bool(result.differing)
    return result
