#!/usr/bin/env python3
"""Cuts runs of a world into the traces of their two nodes, merges these in random orders, and has `postmig test` judge
each; then plants faults into traces, and looks who names them.

python3 bench/compare/merge.py [--quick] [--scripts N] [--orders N] [--program PATH]

The runs are those of examples/ and N random scripts (200) of all profiles of `postmig explore`, each in ten orders.
--quick: 24 scripts, three orders. At each Resume but the first the trace of the destination is also cut, as that of
another one that then replaced the first: before the switch it is merged, after it refused. The status is 1
where an answer differs, where no order is found, or where a planted fault is not named.
"""

import argparse
import collections
import itertools
import os
import pathlib
import random
import re
import subprocess
import sys
import tempfile

import shared  # noqa: F401

from page import TOP
from program import PROFILES, written

sys.path.append(str(TOP / "live"))

import merging  # noqa: E402
import planted_traces  # noqa: E402
from planted_traces import DEST, SOURCE  # noqa: E402

AT_SOURCE = {
    "start", "round", "send", "sendrun", "sread", "sact", "switch", "push", "upush", "serve", "end", "back", "resume"
}
# A line of a run that is in no trace: it changes no node, or is the world's.
NO_STEP = re.compile(r"refused \w+$|moved |broken$|progress ")


def is_at_source(words, has_run):
    """Whose step a line is: of a processor's, that of the node where the guest runs."""
    if words[0] == "notice":
        return words[1] == "source"
    return not has_run if words[0] in ("cpu", "retry") else words[0] in AT_SOURCE


def split(test):
    """The traces of both nodes, as texts, of a script with its answers."""
    traces, has_run, epoch = {SOURCE: [], DEST: []}, False, 0
    for line in test.splitlines():
        order, arrow, answer = line.partition(" => ")
        if not arrow or line.startswith("#") or (NO_STEP.match(answer)):
            continue
        words = order.split()
        if words[0] in ("deliver", "udeliver", "back"):
            words = words[:1]
        side = SOURCE if is_at_source(words, has_run) else DEST
        traces[side].append(f"{' '.join(words)} => {answer}")
        if words[0] in ("start", "resume"):
            epoch = int(answer.split()[-1])
        if answer == "took resume":
            traces[DEST].append(f"# epoch {epoch}")
        has_run |= answer.startswith("took package")
    return traces


def traces_of(test, cpus):
    return {name: f"# cpus {cpus}\n" + "".join(f"{line}\n" for line in lines) for name, lines in split(test).items()}


def merged(traces, seed=None):
    sides = ((SOURCE, merging.SOURCE), (DEST, merging.DEST))
    return merging.Script(*(merging.Trace(name, side, traces[name]) for name, side in sides), seed)


def tests(program, count):
    """Scripts with their answers: a name, the number of processors, and the text."""
    for script in sorted(TOP.glob("examples/*.script")):
        yield script.stem, 2, written([program, "run", "--answers", script]).decode()
    for seed in range(1, count + 1):
        profile, cpus = PROFILES[1 + seed % (len(PROFILES) - 1)], (1, 2, 4, 16)[seed % 4]
        words = [
            "--seed",
            seed,
            "--lines",
            (200, 400)[seed % 2],
            "--profile",
            profile,
            "--cpus",
            cpus,
            *(["--finish"] if seed % 3 else []),
        ]
        yield f"{profile} {seed}", cpus, written([str(program), "explore", *map(str, words), "--answers"]).decode()


def judge(program, files, counts):
    """What `postmig test` finds to differ in these files."""
    done = subprocess.run([program, "test", "--strict", *files], capture_output=True, text=True)
    found = re.search(r"(\d+) files, (\d+) answers, (\d+) differ\n$", done.stdout)
    if not found:
        return [f"postmig test: status {done.returncode}: {done.stdout}{done.stderr}"]
    counts["files"] += int(found[1])
    counts["answers"] += int(found[2])
    return done.stdout.splitlines()[:-1] + done.stderr.splitlines()


def merge_all(program, arguments, counts):
    """The faults of all orders; and the traces, for faults that are planted."""
    wrong, kept, files = [], [], []
    with tempfile.TemporaryDirectory() as folder:
        for number, (name, cpus, test) in enumerate(tests(program, arguments.scripts)):
            traces = traces_of(test, cpus)
            kept.append((name, traces))
            counts["scripts"] += 1
            counts["breaks"] += test.count(" => broken")
            orders = set()
            for seed in (None, *range(1, arguments.orders)):
                try:
                    script = merged(traces, seed)
                except merging.NoOrder as none:
                    wrong.append(f"{name}, order {seed}: {none}")
                    continue
                files.append(pathlib.Path(folder) / f"{number}-{seed}.test")
                files[-1].write_text(script.text())
                orders.add(script.text())
            counts["different orders"] += len(orders)
        wrong += judge(program, files, counts)
    return wrong, kept


# ANOTHER DESTINATION


def epoch_of_switch(source):
    """The epoch in which a source has switched, or a later one than all if it has not."""
    before, switch, _ = source.partition("\nswitch => ")
    return int(re.findall("(?:started|resumed) epoch ([0-9]+)", before)[-1]) if switch else 1 << 32


def of_others(traces):
    """For each Resume that a destination has taken but the first, its trace from the notice before it on, as one has it
    that came then; and whether the source had not switched."""
    head, *lines = traces[DEST].splitlines()
    last, notice, count = epoch_of_switch(traces[SOURCE]), 0, 0
    for at, line in enumerate(lines):
        notice = at if line.startswith("notice dest") else notice
        count += line.endswith("=> took resume")
        if count > 1 and line.endswith("=> took resume"):
            yield "".join(f"{line}\n" for line in (head, *lines[notice:])), int(lines[at + 1].split()[-1]) <= last


def replace_all(program, kept, orders, counts):
    """What is wrong where the trace of a destination is that of another one: it is merged before the switch alone."""
    wrong, files = [], []
    with tempfile.TemporaryDirectory() as folder:
        for name, traces in kept:
            for another, is_before in of_others(traces):
                for seed in (None, *range(1, orders)) if is_before else (None,):
                    try:
                        script = merged({**traces, DEST: another}, seed)
                    except merging.NoOrder as none:
                        wrong += [f"{name}, of another destination, order {seed}: {none}"] if is_before else []
                        counts["refused after the switch"] += not is_before
                        continue
                    wrong += (
                        [] if is_before else [f"{name}: another destination takes the place of one after the switch"]
                    )
                    files.append(pathlib.Path(folder) / f"{len(files)}.test")
                    files[-1].write_text(script.text())
                    counts["orders with another destination"] += 1
        wrong += judge(program, files, collections.Counter())
    return wrong


# PLANTED FAULTS


def by_whom(program, make, folder):
    """By whom a fault is named: `merge`, `test`, or no one, None."""
    try:
        lines = make()
    except (merging.NoOrder, merging.Unreadable):
        return "merge"
    file = pathlib.Path(folder) / "planted.test"
    file.write_text("".join(f"{line}\n" for line in lines))
    return "test" if subprocess.run([program, "test", "--strict", file], capture_output=True).returncode else None


def planted(kept, plant, side, draw):
    """The lines that a plant changes, of runs in which it has a place, and the lines to judge then."""
    for name, traces in draw.sample(kept, len(kept)):
        if side is None:
            lines = plant(merged(traces).lines, draw)
            if lines:
                yield name, lambda lines=lines: lines
            continue
        head, *lines = traces[side].splitlines()
        lines = plant(lines, draw)
        if lines is not None:
            text = "".join(f"{line}\n" for line in (head, *lines))
            yield name, lambda traces=traces, text=text: merged({**traces, side: text}).lines


def plant_all(program, kept, runs):
    """A table of the faults; the number of those that were not named each time."""
    missed, draw = 0, random.Random(1)
    kinds = (("in a trace", planted_traces.TRACES), ("a node's answer", planted_traces.ANSWERS),
             ("in an order", [(name, None, plant) for name, plant in planted_traces.SCRIPTS]))
    with tempfile.TemporaryDirectory() as folder:
        for kind, plants in kinds:
            print(f"{kind:47} runs  merge   test  no one")
            for name, side, plant in plants:
                found = [
                    (who, by_whom(program, make, folder))
                    for who, make in itertools.islice(planted(kept, plant, side, draw), runs)
                ]
                counts = collections.Counter(by for _, by in found)
                print(f"    {name:43} {len(found):4} {counts['merge']:6} {counts['test']:6} {counts[None]:7}"
                      + "".join(f" ({who})" for who, by in found if by is None), flush=True)
                missed += not found or counts[None] > 0
    return missed


def mutate_all(kept, count):
    """Traces that are changed anywhere: merged, or named with a line. What else is raised ends this program."""
    draw, counts = random.Random(2), collections.Counter()
    for _ in range(count):
        _, traces = draw.choice(kept)
        side = draw.choice((SOURCE, DEST))
        text = "".join(f"{line}\n" for line in planted_traces.mutated(traces[side].splitlines(), draw))
        try:
            merged({**traces, side: text}, draw.choice((None, 1)))
            counts["merged"] += 1
        except (merging.NoOrder, merging.Unreadable) as fault:
            counts["named"] += 1
            if not re.search(r"\.trace(:\d+)?", str(fault)):
                raise ValueError(f"no line is named: {fault}") from fault
    print(", ".join(f"{value:,} {name}" for name, value in counts.items()) + " of traces that are changed anywhere")


# PROCESSORS THAT ARE WOKEN

WOKEN = """cpu 0 load 0x11000 8 => cpu 0 asleep
sread => read fault 0x11000 missing
cpu 1 load 0x11000 8 => cpu 1 asleep
sread => read fault 0x11000 missing
cpu 2 dontneed 0x11000 4096 => cpu 2 in call 1
sread => read remove 0x11000 0x12000, cpu 2 done
retry 0 => cpu 0 asleep
sread => read fault 0x11000 missing
retry 1 => cpu 1 asleep
sread => read fault 0x11000 missing
sact => zeroed 0x11000
retry 0 => cpu 0 value 0x0
retry 1 => cpu 1 value 0x0
sact => woke 0x11000
""".splitlines()


def retries():
    """What is wrong with what is said of a trace in which two processors wait for a page, and of those that lack some
    of its lines."""
    wrong = []
    for missing, text in (
        ((), None),
        (
            (8, 9),
            (
                "trace:6: sread => read remove 0x11000 0x12000, cpu 2 done: processor 1 is woken, and not retried "
                "before line 9"
            ),
        ),
        (
            (6, 7, 11),
            (
                "trace:6: sread => read remove 0x11000 0x12000, cpu 2 done: processor 0 is woken, and not retried "
                "before line 9"
            ),
        ),
        ((12,), "trace:11: sact => zeroed 0x11000: processor 1 is woken, and never retried"),
    ):
        lines = [line for number, line in enumerate(WOKEN) if number not in missing]
        found = merging.never_retried(merging.Trace("trace", merging.SOURCE, "\n".join(lines)))
        if found != text:
            wrong.append(f"without the lines {missing}: {found}, and not {text}")
    return wrong


# THE COMMAND LINE


def command_line(traces):
    """What is wrong with the status or the text of live/merge."""
    wrong = []
    with tempfile.TemporaryDirectory() as folder:
        def write(name, text):
            (pathlib.Path(folder) / name).write_text(text)
            return f"{folder}/{name}"

        source, dest = (write(name, traces[name]) for name in (SOURCE, DEST))
        changed = write("changed.trace", re.sub("(?m)(?<=^round => round 1 todo )", "7", traces[SOURCE]))
        short = write("short.trace", traces[SOURCE].replace("\nsend ", "\n# ", 1))
        script = merged(traces).text().partition("\n")[2].partition("\n")[2]
        for words, status, text in (
            ([source, dest], 0, script),
            ([source, dest, "--orders"], 0, "\nswitch\n"),
            ([source, dest, "--seed", "1", "--judge"], 0, "a run of the machine"),
            ([changed, dest, "--judge"], 3, "changed.trace:"),
            ([short, dest], 1, "dest.trace:"),
            ([dest, source], 2, "not a step of a source"),
            ([source, f"{folder}/none"], 2, "No such file"),
            ([source, write("words.trace", "# cpus 2\nhello\n")], 2, "words.trace:2: not a line"),
            ([source, write("no.trace", "")], 1, "source.trace:"),
        ):
            done = subprocess.run([TOP / "live/merge", *words], capture_output=True, text=True)
            if done.returncode != status or text not in done.stdout + done.stderr:
                wrong.append(f"merge {' '.join(words)}: status {done.returncode}: {done.stdout[:200]}{done.stderr}")
    return wrong


def main():
    given = argparse.ArgumentParser(description="Merges the traces of random runs, and has postmig test judge them.")
    given.add_argument("--quick", action="store_true", help="24 scripts, three orders each")
    given.add_argument("--scripts", type=int, metavar="N", help="random scripts (200)")
    given.add_argument("--orders", type=int, metavar="N", help="orders of each (10)")
    given.add_argument("--program", type=pathlib.Path, default=TOP / "postmig", metavar="PATH")
    arguments = given.parse_args()
    os.environ["POSTMIG_PROVED_ONLY"] = "1"  # (a run of a build without proof takes a minute)
    arguments.scripts = arguments.scripts if arguments.scripts is not None else 24 if arguments.quick else 200
    arguments.orders = arguments.orders or (3 if arguments.quick else 10)
    counts = collections.Counter()
    wrong, kept = merge_all(arguments.program, arguments, counts)
    wrong += replace_all(arguments.program, kept, arguments.orders, counts)
    print(", ".join(f"{value:,} {name}" for name, value in counts.items()) + f": {len(wrong)} differ")
    for line in wrong[:20]:
        print(line)
    mutate_all(kept, 300 if arguments.quick else 5000)
    wrong_uses = command_line(dict(kept)["lost-before-switch"]) + retries()
    print(*wrong_uses, sep="\n", end="\n" if wrong_uses else "")
    missed = plant_all(arguments.program, kept, 1 if arguments.quick else 10) + len(wrong_uses)
    return 1 if wrong or missed else 0


if __name__ == "__main__":
    sys.exit(main())
