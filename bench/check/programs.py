#!/usr/bin/env python3
"""Runs the programs on the arguments, files and input of bench/programs, and compares what they write, and their
status.

python3 bench/check/programs.py [--program PATH] [--audit PATH] [CASE ..]

A case is a folder: args has an argument a line, stdin the standard input, data/ the files that lie where the program
runs, after/ those that must be there then, stdout and stderr what it must write, and status its exit status. What
is absent is empty, and the status 0; only where the status is another is an absent stderr not compared. In the file
output is a path that standard output goes to in place of a pipe, and in memory the bytes of address space that the
program may take. Where there is a file typed, its lines are typed at a terminal, and stdout is all that the terminal
then shows but what was typed. The file environment has variables of such a case, as NAME=VALUE; NO_COLOR is otherwise
empty.

A case with a file session runs the program several times, one after another. A line that begins with '$ postmig ' has
the arguments, as a shell reads them; the lines below it are what that writes to standard output and then to standard
error, and '[N]' as the last of them is a status that is not 0.

A case is of postmig; one whose arguments begin with 'audit' is of uffd-audit with those after it, as ./postmig runs
them.

It runs the proved builds: crates/postmig/out/postmig and crates/uffd_audit/out/uffd_audit, as LLVM makes them, and
beside each, where rt ci has left one, that of Rattle's own compiler; or with --program and --audit these alone. The
cases of a program that is not there are left out.
"""

import argparse
import contextlib
import os
import pathlib
import pty
import resource
import shlex
import shutil
import subprocess
import sys
import tempfile
import termios

import shared  # noqa: F401

import page

CASES = page.TOP / "bench" / "programs"
# What a line of a session begins with that has the arguments of a run.
START = b"$ postmig "
# The first argument of a case of uffd-audit.
AUDIT = b"audit"


def builds(crate):
    """The proved builds of a program that are there."""
    files = [page.TOP / "crates" / crate / "out" / f"{crate}{end}" for end in ("", ".by-rattle")]
    return [it for it in files if it.is_file()]


def part(case, name):
    file = case / name
    return file.read_bytes() if file.is_file() else b""


@contextlib.contextmanager
def room(case):
    """A folder with the files of a case."""
    with tempfile.TemporaryDirectory() as folder:
        data = pathlib.Path(folder) / "data"
        if (case / "data").is_dir():
            shutil.copytree(case / "data", data)
        else:
            data.mkdir()
        yield data


def shown(terminal):
    """What a terminal shows until no one has it open any more."""
    pieces = []
    with contextlib.suppress(OSError):
        while piece := os.read(terminal, 4096):
            pieces.append(piece)
    return b"".join(pieces).replace(b"\r\n", b"\n")


def environment(case):
    """The variables of a program at a terminal."""
    given = (line.partition("=")[::2] for line in part(case, "environment").decode().splitlines())
    return {**os.environ, "NO_COLOR": "", **dict(given)}


def typed(words, lines, folder, variables):
    """How the program ends whose input is typed at a terminal, with what that shows but the input itself."""
    terminal, other = pty.openpty()
    modes = termios.tcgetattr(other)
    modes[3] &= ~termios.ECHO
    termios.tcsetattr(other, termios.TCSANOW, modes)
    with subprocess.Popen(words, stdin=other, stdout=other, stderr=other, cwd=folder, env=variables) as child:
        os.close(other)
        # (a line that ends, and then the end of the input)
        os.write(terminal, lines + b"\x04")
        output = shown(terminal)
        os.close(terminal)
        return subprocess.CompletedProcess(words, child.wait(timeout=60), output, b"")


def changed(case, data):
    """The names of the files that are not as they must be after a case."""
    wanted = sorted((case / "after").iterdir()) if (case / "after").is_dir() else []
    return [file.name for file in wanted if part(data, file.name) != file.read_bytes()]


def is_of_audit(case):
    """Whether a case is of uffd-audit."""
    first = part(case, "session").removeprefix(START).split()[:1] or part(case, "args").splitlines()[:1]
    return first == [AUDIT]


def command(program, words):
    """The words of a run of a program."""
    return [bytes(program), *(words[1:] if words[:1] == [AUDIT] else words)]


def ran(case, program):
    """How the program ends on a case, and the names of the files that are then not as they must be."""
    words = command(program, part(case, "args").splitlines())
    memory, output = part(case, "memory"), part(case, "output").decode().strip()

    def limit():
        if memory:
            resource.setrlimit(resource.RLIMIT_AS, (int(memory), int(memory)))

    if (case / "typed").is_file():
        with room(case) as data:
            return typed(words, part(case, "typed"), data, environment(case)), []
    with room(case) as data, open(output, "wb") if output else contextlib.nullcontext(subprocess.PIPE) as to:
        given = part(case, "stdin")
        ended = subprocess.run(
            words, input=given, cwd=data, stdout=to, stderr=subprocess.PIPE, timeout=60, preexec_fn=limit
        )
        return ended, changed(case, data)


def session(text):
    """The runs of a session: the arguments of each, and the lines that are wanted of it."""
    for part in text.removeprefix(START).split(b"\n" + START):
        first, _, rest = part.partition(b"\n")
        yield first.decode(), rest.rstrip(b"\n")


def faults_of_session(case, program):
    """What differs in a session, in words."""
    with room(case) as data:
        for words, wanted in session(part(case, "session")):
            given = command(program, [it.encode() for it in shlex.split(words)])
            ended = subprocess.run(given, cwd=data, stdin=subprocess.DEVNULL, capture_output=True, timeout=60)
            said = ended.stdout + ended.stderr + (f"[{ended.returncode}]\n".encode() if ended.returncode else b"")
            if said.rstrip(b"\n") != wanted:
                yield f"'{words}' writes {said[:400]}"
        yield from (f"{name} is another file then" for name in changed(case, data))


def faults(case, program):
    """What differs in a case, in words."""
    if (case / "session").is_file():
        yield from faults_of_session(case, program)
        return
    ended, others = ran(case, program)
    wanted = int(part(case, "status") or 0)
    if ended.returncode != wanted:
        yield f"status {ended.returncode}, and not {wanted}: {ended.stderr.decode(errors='replace').strip()}"
    if (ended.stdout or b"") != part(case, "stdout"):
        yield f"standard output is {ended.stdout[:400]}"
    if ((case / "stderr").is_file() or not wanted) and ended.stderr != part(case, "stderr"):
        yield f"standard error is {ended.stderr[:400]}"
    for name in others:
        yield f"{name} is another file then"


def asked():
    parser = argparse.ArgumentParser(description="Runs the programs on the cases of bench/programs.")
    parser.add_argument(
        "--program", type=pathlib.Path, metavar="PATH", help="a build of postmig, in place of the proved ones"
    )
    parser.add_argument(
        "--audit", type=pathlib.Path, metavar="PATH", help="a build of uffd-audit, in place of the proved ones"
    )
    parser.add_argument("cases", nargs="*", metavar="CASE", help="the cases, all where none is named")
    return parser.parse_args()


def builds_asked(given):
    """The builds of postmig and of uffd-audit that are asked for."""
    if not given.program and not given.audit:
        return builds("postmig"), builds("uffd_audit")
    return tuple([it.absolute()] if it else [] for it in (given.program, given.audit))


def main():
    arguments = asked()
    of_postmig, of_audit = builds_asked(arguments)
    if not of_postmig and not of_audit:
        sys.exit("programs: there is no proved build: ./postmig prove or rt ci makes one")
    cases = [CASES / name for name in arguments.cases] or sorted(it for it in CASES.iterdir() if it.is_dir())
    runs = wrong = 0
    for case in cases:
        for program in of_audit if is_of_audit(case) else of_postmig:
            runs += 1
            for fault in faults(case, program):
                print(f"programs: {case.name} by {program.name}: {fault}")
                wrong += 1
    counts = f"{len(of_postmig)} builds of postmig and {len(of_audit)} of uffd-audit"
    print(f"programs: {len(cases)} cases, {counts}, {runs} runs, {wrong} faults")
    sys.exit(1 if wrong else 0)


if __name__ == "__main__":
    main()
