"""What the tests share."""

import os
import pathlib
import subprocess
import sys

AUDIT = pathlib.Path(__file__).resolve().parent.parent
OUT = AUDIT / "out"
sys.path.insert(0, str(AUDIT))
STATUS_CANNOT = 77
# Set by audit/test --quick: fewer runs and seeds.
QUICK = "AUDIT_QUICK" in os.environ


def run(program, *words, **more):
    """Runs a program of this folder."""
    return subprocess.run(
        [sys.executable, AUDIT / program, *map(str, words)], capture_output=True, text=True, timeout=60, **more
    )


def audit(log, *more):
    """What the program says of a log, with these arguments."""
    named = os.environ.get("AUDIT_PROGRAM")
    words = [named] if named else [AUDIT.parent / "postmig", "audit"]
    return subprocess.run([*words, *more, log], capture_output=True, text=True, timeout=600)


def compiled(name):
    """A program of tests/, compiled where it is older than its source."""
    done = subprocess.run(["make", "-s", "-C", AUDIT / "recorder", f"../out/{name}"], capture_output=True, text=True)
    if done.returncode:
        raise AssertionError(f"{name}.c cannot be compiled:\n{done.stderr}")
    return OUT / name


def example():
    """The lines of the example of docs/UFFDLOG.md."""
    text = (AUDIT.parent / "docs" / "UFFDLOG.md").read_text()
    lines = [line[4:] for line in text[text.index("    uffdlog 1\n"):].splitlines() if line.startswith("    ")]
    return [line.encode() + b"\n" for line in lines]
