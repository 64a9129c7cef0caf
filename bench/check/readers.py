#!/usr/bin/env python3
"""Gives each command that reads lines an input without an end and without a line feed: it must stop at its first
line, in little memory.

python3 bench/check/readers.py [--program PATH] [--audit PATH]

The input is /dev/zero, as FILE and as standard input, and a letter over and over from a pipe, each alone and after a
line of a script. A command has 64 MiB of address space, and 20 s. uffd-audit gets the same, but not after a line. It
runs the proved builds, as programs.py does; or with --program and --audit these alone.
"""

import argparse
import contextlib
import pathlib
import resource
import subprocess
import sys
import threading

import programs

ROOM = 64 << 20
SECONDS = 20
COMMANDS = [
    "run",
    "run --transcript",
    "run --steps",
    "run --answers",
    "run --echo",
    "finish",
    "check",
    "check --all",
    "check --explain",
    "check --strict",
    "lint",
    "lint --transcript",
    "draw",
    "show all",
    "show --at 9 all",
    "test",
    "test --all",
    "test --tap",
    "history",
]
OF_FILES = [*COMMANDS, "test --write"]
PIECE = b"y" * 65_536


def limit():
    resource.setrlimit(resource.RLIMIT_AS, (ROOM, ROOM))


def feed(pipe, begin):
    """Writes to a pipe until no one reads it any more."""
    with contextlib.suppress(BrokenPipeError), pipe:
        pipe.write(begin)
        while True:
            pipe.write(PIECE)


def ended(words, begin):
    """How a command ends whose standard input begins so and never ends."""
    how = {"stdin": subprocess.PIPE, "stdout": subprocess.DEVNULL, "stderr": subprocess.PIPE}
    with subprocess.Popen(words, preexec_fn=limit, **how) as child:
        feeder = threading.Thread(target=feed, args=(child.stdin, begin), daemon=True)
        feeder.start()
        try:
            child.wait(timeout=SECONDS)
        except subprocess.TimeoutExpired:
            child.kill()
            return None, b""
        said = child.stderr.read()
        feeder.join()
        return child.returncode, said


def ended_on(words, stdin):
    """How a command ends that reads this open file, or one that it names itself."""
    try:
        how = {"stdin": stdin, "stdout": subprocess.DEVNULL, "stderr": subprocess.PIPE}
        done = subprocess.run(words, timeout=SECONDS, preexec_fn=limit, check=False, **how)
    except subprocess.TimeoutExpired:
        return None, b""
    return done.returncode, done.stderr


def audit_cases(program):
    """The same of uffd-audit."""
    yield "audit /dev/zero", ended_on([program, "/dev/zero"], subprocess.DEVNULL)
    with open("/dev/zero", "rb") as zeros:
        yield "audit < /dev/zero", ended_on([program], zeros)
    yield "audit of a letter", ended([program], b"")


def cases(program):
    """Each case of postmig with its name, and how it ends."""
    for command in OF_FILES:
        words = [program, *command.split(), "/dev/zero"]
        yield f"{command} /dev/zero", ended_on(words, subprocess.DEVNULL)
    for command in COMMANDS:
        words = [program, *command.split()]
        with open("/dev/zero", "rb") as zeros:
            yield f"{command} < /dev/zero", ended_on(words, zeros)
        yield f"{command} of a letter", ended(words, b"")
        yield f"{command} of a letter after a line", ended(words, b"start\n")


def asked():
    parser = argparse.ArgumentParser(description="Gives each command an input without an end.")
    for name in ("--program", "--audit"):
        parser.add_argument(
            name, type=pathlib.Path, metavar="PATH", help="a build of the program, in place of the proved ones"
        )
    return parser.parse_args()


def main():
    it = asked()
    given = it.program or it.audit
    scripts = ([it.program.absolute()] if it.program else []) if given else programs.builds("postmig")
    logs = ([it.audit.absolute()] if it.audit else []) if given else programs.builds("uffd_audit")
    if not scripts + logs:
        sys.exit("readers: there is no proved build: ./postmig prove or rt ci makes one")
    count = wrong = 0
    for builds, cases_of, wanted in ((scripts, cases, 1), (logs, audit_cases, 2)):
        for build in builds:
            for name, (status, said) in cases_of(build):
                count += 1
                if status != wanted:
                    wrong += 1
                    print(f"readers: {name} by {build.name}: status {status}, {said[:200]}")
    print(f"readers: {count} cases, {wrong} faults")
    sys.exit(1 if wrong else 0)


if __name__ == "__main__":
    main()
