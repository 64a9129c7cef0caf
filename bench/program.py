"""The program that scripts run, and the migrations that they have it make."""

import pathlib
import subprocess
import sys

import page
from model.frames import PAGE

PROGRAM = page.TOP / "crates" / "postmig" / "out" / "postmig"
# Of postmig explore.
PROFILES = ("commands", "precopy", "postcopy", "moves", "breaks", "urgent", "bytes", "runs", "all")
# The address of the first page that a guest may map.
LOW = 0x10000


def require(*programs):
    """Ends the script where a program was not built."""
    for it in programs:
        if not pathlib.Path(it).is_file():
            sys.exit(
                f"there is no {it}: rt ci makes each program, ./postmig prove that of crates/postmig, and rt run in "
                "crates/NAME one alone"
            )


def file_at(name):
    """The path of a file that a command line names; the script ends where there is none."""
    path = pathlib.Path(name)
    if not path.is_file():
        sys.exit(f"{name}: no such file")
    return path


def run(words, given=b"", folder=None):
    """How a command ends on an input, with what it wrote."""
    return subprocess.run(words, input=given, stdout=subprocess.PIPE, stderr=subprocess.PIPE, cwd=folder)


def written(words, given=b"", folder=None):
    """What a command writes, which must succeed."""
    ended = run(words, given, folder)
    if ended.returncode:
        raise ValueError(
            f"{' '.join(map(str, words))}: status {ended.returncode}, {ended.stdout[-200:]}{ended.stderr[-200:]}"
        )
    return ended.stdout


# The lines of migrations


def stored(pages):
    """A guest that has stored to this many pages."""
    yield f"cpu 0 mmap {pages * PAGE} rw"
    for page_number in range(pages):
        yield f"cpu 0 store {LOW + page_number * PAGE:#x} 8 {page_number + 1}"


def switched(pages):
    yield from stored(pages)
    yield from ("start", "switch", "deliver", "deliver", "deliver")


def pushed(pages):
    """All of these pages are pushed after the switch."""
    yield from switched(pages)
    for page_number in range(pages):
        yield from (f"push {LOW + page_number * PAGE:#x}", "deliver", "install")
