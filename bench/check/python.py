#!/usr/bin/env python3
"""Installs the Python package of python/ into a folder, and uses it there as another program would.

python3 bench/check/python.py

The library is that of dist/, or of release/ where it is of these sources; else nothing is tested, which is said. The
status is 1 where an example runs otherwise than its output says, where a check, a listing, a decoder or a pair of nodes
answers otherwise than the pages say, or where the package does not name its version. It needs no pip: the wheel is made
as pip has it made, and unpacked.
"""

import os
import pathlib
import subprocess
import sys
import tempfile
import zipfile

import shared  # noqa: F401

import page

PYTHON = page.TOP / "python"
LIBRARY = page.TOP / "dist" / "libpostmig.so"

USE = (
    r'''
import pathlib, sys
import postmig
from postmig import nodes

def equal(what, found, wanted):
    if found != wanted:
        sys.exit(f"{what}: {found!r}, and not {wanted!r}")

count = 0
for script in sorted(pathlib.Path(sys.argv[1]).glob("*.script")):
    text, wanted = script.read_bytes(), script.with_suffix(".out").read_bytes()
    with postmig.World() as world:
        equal(script.name, b"".join(world.line(line) for line in text.splitlines()), wanted)
    equal(script.name, postmig.run(text), wanted)
    equal(script.name, postmig.check(postmig.run(text, transcript=True))[0], True)
    equal(script.name, postmig.lint(text), b"")
    count += 1
equal("the examples", count > 20, True)
strat = b"-:1:1: `strat` is not the first word of a script line: did you mean `start`?\n"
equal("lint", postmig.lint(b"strat\n"), strat)
equal("reason", postmig.reason(b"start"), None)
WRONG = b"""\
wrong 0 expected segv unmapped
  line 1, entry 0: 0 load 0x10000 8 => done
  0x10000 was never mapped
"""
equal("explain", postmig.explain(b"0 load 0x10000 8 => done\n"), (False, WRONG))
with postmig.World() as world, world.copy() as copy:
    equal("a copy", (world.is_same(copy), world.is_same(world)), (True, True))
    copy.line(b"start")
    equal("another world", (world.is_same(copy), copy.is_same(world)), (False, False))
    equal("would", (world.would(b"start"), copy.would(b"start"), copy.would(b"round")), (None, "Phase", None))
    counts = copy.counts()
    equal("counts", (world.counts().phase, counts.phase, counts.epoch), (postmig.IDLE, postmig.PRECOPY, 1))
    equal("show", copy.show(postmig.WIRES).splitlines()[-1], b"wire 1: advise, epoch 1")
    try:
        copy.line(b"strat")
        sys.exit("a wrong line is done")
    except postmig.Refused as refused:
        equal("a wrong line", refused.status, postmig.NOT_A_LINE)
with postmig.Source() as source, postmig.Destination() as destination, postmig.Frames() as frames:
    source.trace()
    source.issue(0, nodes.command(nodes.MMAP, length=4096, prot=nodes.PROT_READ_WRITE))
    source.issue(0, nodes.command(nodes.STORE, addr=0x10000, width=8))
    source.start()
    source.switch()
    sent = source.frames()
    equal("tags", [frame.tag for frame, _ in frames.feed(sent)], [1, 4, 5])
    took = []
    while sent:
        head, pages = nodes.frame_lengths(sent)
        took.append(destination.take(sent[:head]).kind)
        sent = sent[head + pages:]
    equal("took", took, [nodes.DID_TAKE_ADVISE, nodes.DID_TAKE_DISCARD, nodes.DID_TAKE_PACKAGE])
    equal("remaining", source.next_remaining(), 0x10)
    source.push(1, 0x10)
    equal("a page", destination.take(nodes.zero_frame(1, 0x10)).kind, nodes.DID_TAKE_ZERO)
    equal("home", destination.home(0x10), 0x10)
    equal("install", destination.install().addr, 0x10000)
    source.end()
    destination.take(source.frames())
    equal("done", source.back(destination.frames()).kind, nodes.DID_TAKE_DONE)
    phases = (source.counts().phase, destination.counts().phase)
    equal("states", phases, (nodes.SOURCE_RELEASED, nodes.DESTINATION_ENDED))
    equal("trace", source.traced().splitlines()[-1], b"back => took done")
    try:
        source.start()
        sys.exit("a released source starts")
    except postmig.Refused as refused:
        equal("a refusal", str(refused), "Phase")
print(f"python: {count} examples, two nodes, a decoder and a listing, by the installed package")
'''
)


def main():
    page.option()
    if subprocess.run(
        [page.TOP / "postmig", "sources", "postmig_c"], capture_output=True, text=True
    ).stdout.strip().endswith("not proved"):
        print("python: left out, there is no library of these sources: ./postmig library --build makes it")
        return 0
    if not LIBRARY.is_file():
        subprocess.run([page.TOP / "postmig", "library"], check=True, capture_output=True)
    sys.path.insert(0, str(PYTHON))
    import wheel_of

    with tempfile.TemporaryDirectory() as folder:
        room = pathlib.Path(folder)
        with zipfile.ZipFile(room / wheel_of.build_wheel(folder)) as wheel:
            names = wheel.namelist()
            wheel.extractall(room / "site")
        missing = {f"postmig/{path.name}" for path in (PYTHON / "postmig").iterdir() if path.is_file()} - set(names)
        if missing:
            sys.exit(f"python: not in the wheel: {', '.join(sorted(missing))}")
        environment = {
            **os.environ,
            "PYTHONPATH": str(room / "site"),
            "POSTMIG_LIBRARY": str(LIBRARY),
            "PYTHONDONTWRITEBYTECODE": "1",
        }
        ran = subprocess.run(
            [sys.executable, "-c", USE, page.TOP / "examples"],
            cwd=folder,
            env=environment,
            capture_output=True,
            text=True,
        )
    print(ran.stdout + ran.stderr, end="")
    return 1 if ran.returncode else 0


if __name__ == "__main__":
    sys.exit(main())
