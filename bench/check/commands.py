#!/usr/bin/env python3
"""Runs the commands of the pages, each block of them in one folder a page, and says which ends or prints otherwise than
its page has it.

python3 bench/check/commands.py [PAGE ..]

A block of a page is what is indented by four spaces. One that begins with '$ ' is a session: each line that begins so
is a command, and the lines below it are what it writes, standard error among it. Any other block whose first word is a
program of the pages is a script of the shell, and must end with status 0. A block after a line that ends with `NAME`:
is the file NAME. A line with [ .. ], or that ends with '..', shows which words a command takes, and is not run; nor is
one with a word of LEFT_OUT. 'postmig' is the launcher, which fails where there is no proved program.
"""

import os
import pathlib
import re
import shutil
import signal
import subprocess
import sys
import tempfile

import shared  # noqa: F401

import page
from program import file_at

PAGES = ["README.md", "docs/*.md", "conformance/README.md"]
PROGRAMS = re.compile(r"(postmig|\./postmig|python3|cc|rustc|cd|seq|cat|gzip|rt|conformance/\w+|PKG_CONFIG_PATH=\S+) ")
FILE = re.compile(r"`([\w.-]+)`:$")
# Lines that are not run, by words in them, with the reason.
LEFT_OUT = {
    "rt ci": "it is the gate",
    "conformance/": "they need userfaultfd(2); .ci/run has two of them",
    "library --build": "it proves the library, which takes minutes",
    "tar -x": "it compares what the line before it builds",
    "cmp - crates/": "release.py compares the programs, and knows which kit built them",
    "rustc": "a machine of the gate may have none; bench/compare/embed.py runs it",
    "postmig prove": "it proves the program, which takes an hour",
    "crates/driver": "it proves and builds the driver",
    "parallel": "it is a sketch for other machines",
    "your-handler": "it is a sketch for a batch system",
}
# The most that a block may take.
SECONDS = 60
# Programs without which a line is not run.
TOOLS = ("cc", "pkg-config", "gzip", "xargs", "awk")
# What is made smaller, so that all blocks take seconds.
SMALLER = {"seq 1 10000": "seq 1 20", "--seeds 1:1000": "--seeds 1:20"}


def blocks(text):
    """The blocks of a page: the number of the first line, the line before the block, and its lines."""
    before, first, found, before_is_text = "", 0, [], False
    for number, line in enumerate([*text.splitlines(), ""], 1):
        if line.startswith("    ") and (found or not before_is_text):
            found.append(line[4:])
            first = first or number
        elif found and line:
            first, found = 0, []
        elif found:
            yield first, before, found
            first, found = 0, []
        if line and not line.startswith("    "):
            before = line
        before_is_text = bool(line) and not line.startswith("    ")


def ran(command, folder, path):
    """The status of a command of the shell, and what it has written. One that takes too long is ended, with all that it
    has started."""
    environment = {**os.environ, "PATH": path, "HOME": str(folder), "POSTMIG_PROVED_ONLY": "1"}
    child = subprocess.Popen(
        ["bash", "-euo", "pipefail", "-c", command],
        cwd=folder,
        env=environment,
        start_new_session=True,
        text=True,
        errors="replace",
        stdin=subprocess.DEVNULL,
        stdout=subprocess.PIPE,
        stderr=subprocess.STDOUT,
    )
    try:
        said, _ = child.communicate(timeout=SECONDS)
    except subprocess.TimeoutExpired:
        os.killpg(child.pid, signal.SIGKILL)
        return 1, f"(ended after {SECONDS} s)"
    return child.returncode, said


def session(lines):
    """The commands of a session, each with the lines that it must write."""
    for line in lines:
        if line.startswith("$ "):
            command, wanted = line[2:], []
            yield command, wanted
        else:
            wanted.append(line)


def faults_of(lines, folder, path):
    """What a block does otherwise than its page says."""
    if lines[0].startswith("$ "):
        for command, wanted in [*session(lines)]:
            _, said = ran(command, folder, path)
            if said.splitlines() != wanted:
                yield f"'{command}' does not write what is below it, but:\n{said}"
        return
    script = "\n".join(lines)
    for old, new in SMALLER.items():
        script = script.replace(old, new)
    status, said = ran(script, folder, path)
    if status:
        yield f"'{lines[0]}' ends with status {status}:\n{said}"


def room(folder):
    """Makes a folder look like the top of the repository, with the launcher as 'postmig'. Returns the PATH for it."""
    for name in ("examples", "docs", "conformance", "release", "crates", "bench", "dist", "python"):
        (folder / name).symlink_to(page.TOP / name)
    launcher = folder / "postmig"
    launcher.write_text(f'#!/bin/sh\nexec "{page.TOP}/postmig" "$@"\n')
    launcher.chmod(0o755)
    return f"{folder}:{os.environ['PATH']}"


def to_run(lines):
    """The lines of a block that are run: none where it is no block of commands."""
    if not (lines[0].startswith("$ ") or PROGRAMS.match(lines[0])):
        return []
    missing = [tool for tool in TOOLS if not shutil.which(tool)]
    shown = re.compile(r"\[-?-?\w+.*\]| \.\.$")
    left = [it for it in lines if not shown.search(it) and not any(word in it for word in LEFT_OUT)]
    left = [it for it in left if not any(re.search(rf"\b{tool}\b", it) for tool in missing)]
    return left if lines[0] in left or not lines[0].startswith("$ ") else []


def main():
    named = [file_at(it).resolve() for it in sys.argv[1:]]
    count = faults = 0
    for file in named or [it for pattern in PAGES for it in sorted(page.TOP.glob(pattern))]:
        with tempfile.TemporaryDirectory() as name:
            folder = pathlib.Path(name)
            path = room(folder)
            for number, before, lines in blocks(file.read_text()):
                if made := FILE.search(before):
                    (folder / made[1]).write_text("\n".join(lines) + "\n")
                elif left := to_run(lines):
                    count += 1
                    for fault in faults_of(left, folder, path):
                        faults += 1
                        print(f"{file.relative_to(page.TOP)}:{number}: {fault}")
    print(f"commands of the pages: {count} blocks, {faults} faults")
    sys.exit(1 if faults else 0)


if __name__ == "__main__":
    main()
