#!/usr/bin/env python3
"""Tests the library of dist/, which ./postmig library builds: from C with the address and the undefined-behaviour
sanitizer, with each allocation refused in turn, from several threads, from Python and from Rust; builds and runs the
programs of examples/embed; and measures a million lines beside the program. Prints what it did, and stops at the first
fault with the status 1. What the machine lacks is left out, and said.

python3 bench/compare/embed.py [--loads N]
"""

import argparse
import pathlib
import shutil
import subprocess
import sys
import tempfile
import time

import shared  # noqa: F401

from model.frames import encode
import program
from page import TOP
from program import PROGRAM

DIST, EMBED = TOP / "dist", TOP / "examples" / "embed"
# The scripts, each with its answers.
SCRIPTS = [(script, script.with_suffix(".out")) for script in sorted(TOP.glob("examples/*.script"))]
# The questions of postmig show, in the order of their numbers.
WHATS = ("cpus", "queues", "owed", "wires", "pages", "all")
# The two in which each allocation is refused.
REFUSED = [pair for pair in SCRIPTS if pair[0].stem in ("fault", "lost-after-run")]
# What is wrong with some lines.
NEAR = (1, b"`strat` is not the first word of a script line: did you mean `start`?")
EXTRA = b"-:2:7: `1` is a word too many: the line is `round`\n"
UNMAPPED = b"wrong 0 expected segv unmapped\n  line 1, entry 0: 0 load 0x0 8 => value 0x0\n  0x0 was never mapped\n"


def run(*words, **options):
    """Runs a program, and returns what it wrote."""
    done = subprocess.run([str(word) for word in words], capture_output=True, **options)
    if done.returncode:
        sys.exit(f"embed: {words[0]}: status {done.returncode}\n{done.stdout.decode()}{done.stderr.decode()}")
    return done.stdout


def stream():
    """Advise, a zero page, four runs of two pages, a Discard and an End."""
    pages = bytes(n * 7 % 251 for n in range(8192))
    frames = [("advise", {}), ("zero", {"page": 16})]
    frames += [("run", {"page": 32 + 2 * n, "count": 2, "bytes": pages}) for n in range(4)]
    frames += [("discard", {"pages": [(0x3FF, 0x102), (0x502, 1)]}), ("end", {"urgent": 0})]
    return b"".join(encode(1, *it) for it in frames)


def built(made, *words):
    run("cc", "-std=gnu11", "-Wall", "-Wextra", "-I", DIST, "-o", made, *words, DIST / "libpostmig.a")
    return made


def in_c(work, loads):
    pairs = [path for pair in SCRIPTS for path in pair]
    checked = built(work / "checked", "-g", "-fsanitize=address,undefined", TOP / "bench/embed/lines.c")
    print("C, with the sanitizers:", run(checked, 1000, *pairs).decode().split("\n")[0])
    if shutil.which("valgrind"):
        plain = built(work / "valgrind", "-g", TOP / "bench/embed/lines.c")
        run("valgrind", "-q", "--error-exitcode=1", "--leak-check=full", plain, 100, *pairs[:8])
        print("C, under valgrind: no fault")
    else:
        print("C, under valgrind: left out, there is none")
    (work / "stream").write_bytes(stream())
    wraps = [f"-Wl,--wrap={name}" for name in ("malloc", "realloc", "free")]
    refuse = built(work / "refuse", "-g", "-fsanitize=address", *wraps, TOP / "bench/embed/refuse.c")
    print("C:", run(refuse, work / "stream", *(path for pair in REFUSED for path in pair)).decode().strip())
    nodes = built(work / "nodes", "-g", "-fsanitize=address,undefined", *wraps, TOP / "bench/embed/nodes.c")
    print("C:", run(nodes).decode().strip())
    (work / "nodes.test").write_bytes(run(nodes, "script"))
    if PROGRAM.exists():
        print(
            "the traces of its nodes, as one script:",
            run(PROGRAM, "test", "--strict", work / "nodes.test").decode().strip(),
        )
    else:
        print("the traces of its nodes: left out, the program is not proved and built")
    asks = built(work / "asks", "-g", "-fsanitize=address,undefined", TOP / "bench/embed/asks.c")
    print("C:", run(asks, *(script for script, _ in SCRIPTS)).decode().strip())
    inside = built(work / "inside", "-g", "-fsanitize=address,undefined", TOP / "bench/embed/inside.c")
    print("C:", run(inside, *(script for script, _ in SCRIPTS)).decode().strip())
    inside_the_program(work, inside)
    in_threads(work)
    fast = built(work / "fast", "-O2", TOP / "bench/embed/lines.c")
    print("C:", run(fast, loads).decode().strip().split("\n")[-1])


def in_threads(work):
    """A handle is one thread's. The thread sanitizer does not look into the library; drd does."""
    scripts = [script for script, _ in SCRIPTS]
    sanitized = built(work / "threads-sanitized", "-g", "-fsanitize=thread", TOP / "bench/embed/threads.c", "-pthread")
    print("C, with the thread sanitizer:", run(sanitized, 30, *scripts).decode().strip())
    threads = built(work / "threads", "-g", TOP / "bench/embed/threads.c", "-pthread")
    if shutil.which("valgrind"):
        said = run("valgrind", "-q", "--tool=drd", "--error-exitcode=1", threads, 3, *scripts)
        print("C, under valgrind's drd:", said.decode().strip())
    else:
        print("C, under valgrind's drd: left out, there is none")


def inside_the_program(work, inside):
    """Compares what the library says of worlds, wrong lines and transcripts with what the program writes."""
    if not PROGRAM.exists():
        print("what is said of worlds and lines, beside the program: left out, it is not proved and built")
        return
    count = 0
    for script, _ in SCRIPTS:
        text = script.read_bytes()
        lines = text.splitlines(keepends=True)
        for at in sorted({1, len(lines) // 3, len(lines) * 2 // 3, len(lines)}):
            for number, what in enumerate(WHATS):
                compared((PROGRAM, "show", "--at", at, what, script), (inside, "show", at, number, script))
                count += 1
        transcript = program.run([PROGRAM, "run", "--transcript", script]).stdout
        broken, changed = work / "broken", work / "changed"
        broken.write_bytes(text[1:] + b"# a comment that stays\n" + transcript + bytes(300))
        # each reply has another digit at its end, but for those that have none
        changed.write_bytes(
            b"".join(
                line[:-2] + (b"1" if line[-2:-1] == b"0" else b"0") + b"\n" if line[-2:-1].isdigit() else line
                for line in transcript.splitlines(keepends=True)
            )
        )
        for name, option in (("lint", []), ("entries", ["--transcript"])):
            compared((PROGRAM, "lint", *option), (inside, name, broken), broken)
        for name, option in (("explain", []), ("all", ["--all"])):
            compared((PROGRAM, "check", "--explain", *option), (inside, name, changed), changed)
        count += 4
    print(f"C: {count} texts on worlds, wrong lines and transcripts are those that the program writes")


def compared(words, others, given=None):
    """Ends the script where a command of the program, whose input may be a file, does not write what the other command
    writes."""
    wanted = program.run([str(word) for word in words], given.read_bytes() if given else b"").stdout
    if not wanted or run(*others) != wanted:
        sys.exit(f"embed: {' '.join(map(str, others))}: not what the program writes")


def in_python(loads):
    sys.path[:0] = [str(EMBED), str(TOP / "python")]
    import compare
    import postmig

    for script, answers in SCRIPTS:
        _, differs = compare.compare(script.read_bytes(), iter(answers.open("rb")))
        whole = postmig.run(script.read_bytes())
        is_flat, verdict = postmig.check(postmig.run(script.read_bytes(), transcript=True))
        if (
            compare_fails(differs, script, answers)
            or whole != answers.read_bytes()
            or not is_flat
            or not verdict.startswith(b"ok ")
        ):
            sys.exit(f"embed: Python: {script.stem} differs")
    frames_in_python(postmig)
    asked_in_python(postmig)
    with postmig.World() as world:
        world.line(b"cpu 0 mmap 65536 rw")
        begun = time.perf_counter()
        for _ in range(loads // 10):
            world.line(b"cpu 0 load 0x10000 8")
        print(
            f"Python: {len(SCRIPTS)} scripts and a stream agree; {loads // 10} loads: "
            f"{time.perf_counter() - begun:.3f} s"
        )


def frames_in_python(postmig):
    text = stream()
    with postmig.Frames() as frames:
        got = [
            (numbers.tag, numbers.addr, numbers.count, part)
            for at in range(0, len(text), 777)
            for numbers, part in frames.feed(text[at : at + 777])
        ]
    numbers = [(tag, addr, count) for tag, addr, count, _ in got]
    if b"".join(part for *_, part in got) != text or numbers[1:3] != [(3, 0x10000, 1), (8, 0x20000, 2)]:
        sys.exit("embed: Python: the frames differ")


def asked_in_python(postmig):
    with postmig.World() as world, world.copy() as copy:
        copy.line(b"start")
        asked = [world.would(b"switch"), copy.would(b"switch")]
        copy.line(b"break")
        asked += [copy.show(postmig.WIRES).splitlines()[1], copy.show(postmig.PAGES, 0, 4096).splitlines()[1:]]
    asked += [
        postmig.reason(b"start"),
        postmig.reason(b"strat"),
        postmig.reason(b"start", transcript=True)[0],
        postmig.lint(b"start\nround 1\n"),
        postmig.explain(b"0 load 0x0 8 => value 0x0\n"),
        postmig.explain(b"0 load 0x0 8 => done\n", every=True)[0],
    ]
    wires, pages = b"channel lost, epoch 1", [b"pages source 0 dest 0"]
    if asked != ["Phase", None, wires, pages, None, NEAR, 1, EXTRA, (False, UNMAPPED), False]:
        sys.exit(f"embed: Python: asked: {asked}")


def compare_fails(differs, script, answers):
    """Whether the comparison found a difference, or misses one that is made on purpose in the last answer."""
    import compare

    lines = answers.read_bytes().splitlines(keepends=True)
    _, wrong = compare.compare(script.read_bytes(), iter([*lines[:-1], b"wrong\n"]))
    return differs is not None or wrong is None or "wrong" not in wrong


def in_rust(work):
    if not shutil.which("rustc"):
        print("Rust: left out, there is no rustc")
        return
    decode = work / "decode"
    run(
        "rustc", "--edition", "2024", "-O", "-o", decode, EMBED / "decode.rs", "-L", DIST, "-l", "static=postmig",
        cwd=work,
    )
    said = run(decode, input=stream()).decode().splitlines()
    if len(said) != 9 or said[1] != "tag 0x03 epoch 1 address 0x10000 count 1 of 16 bytes" or said[-1] != "whole":
        sys.exit("embed: Rust: " + "\n".join(said))
    if (
        run(decode, input=stream()[:-1]).decode().splitlines()[-1] != "truncated"
        or run(decode, input=bytes(12)) != b"fault 8 behind byte 0\n"
    ):
        sys.exit("embed: Rust: a stream that ends inside a frame, or has a fault")
    print("Rust: decode.rs reads a stream, one that is cut off, and one with a fault")


def programs(work):
    drive = built(work / "drive", "-O2", EMBED / "drive.c")
    if run(drive).decode().splitlines()[-1] != "phase 4 sent 16 installed 16 left 0 faults 4":
        sys.exit("embed: drive.c: " + run(drive).decode())
    shared = work / "drive-shared"
    run("cc", "-I", DIST, "-o", shared, EMBED / "drive.c", "-L", DIST, "-lpostmig", f"-Wl,-rpath,{DIST}")
    if run(shared) != run(drive):
        sys.exit("embed: drive.c differs over the shared object")
    strict = [
        "-Wall", "-Wextra", "-Wconversion", "-Werror", "-g", "-fsanitize=address,undefined", "-fno-sanitize-recover=all"
    ]
    two = built(work / "two", *strict, EMBED / "two_nodes.c")
    for _ in range(10):
        said = sorted(run(two).decode().splitlines())
        if said != [
            "destination: 16 pages as the source stored them", "source: 8 pages owed, 8 discarded", "source: released"
        ]:
            sys.exit(f"embed: two_nodes.c: {said}")
    said = run(sys.executable, EMBED / "compare.py", *SCRIPTS[0]).decode()
    if said != f"all {len(SCRIPTS[0][1].read_text().splitlines())} answers agree\n":
        sys.exit("embed: compare.py: " + said)
    print("drive.c, two_nodes.c and compare.py say what docs/USING.md says")


def beside_the_program(work, loads):
    if not PROGRAM.exists():
        print("the program: left out, it is not proved and built")
        return
    script = work / "loads.script"
    script.write_text("cpu 0 mmap 65536 rw\n" + "cpu 0 load 0x10000 8\n" * loads)
    begun = time.perf_counter()
    run(PROGRAM, "run", script)
    print(f"the program: {loads} loads: {time.perf_counter() - begun:.3f} s")


def main():
    given = argparse.ArgumentParser(description=__doc__)
    given.add_argument("--loads", type=int, default=1_000_000, help="the loads that are measured")
    loads = given.parse_args().loads
    if not (DIST / "libpostmig.a").exists():
        sys.exit("embed: there is no library: ./postmig library")
    with tempfile.TemporaryDirectory() as made:
        work = pathlib.Path(made)
        in_c(work, loads)
        in_python(loads)
        in_rust(work)
        programs(work)
        beside_the_program(work, loads)


if __name__ == "__main__":
    main()
