"""Tests a fault handler against the model: one step for one event, and both must do the same.

python3 docs/client.py [PROGRAM]     PROGRAM is postmig (the launcher of this repository)
"""
import pathlib, subprocess, sys

LAUNCHER = pathlib.Path(__file__).resolve().parent.parent / "postmig"


class Model:
    """A world of the model, in a process of its own."""

    def __init__(self, program):
        try:
            self.process = subprocess.Popen(
                [program, "run", "--cpus", "2"], stdin=subprocess.PIPE, stdout=subprocess.PIPE, text=True
            )
        except OSError as fault:
            sys.exit(f"{program}: {fault.strerror}")

    def step(self, line):
        """Makes one step and returns its answer. The line is not a comment: that would have no answer."""
        self.process.stdin.write(line + "\n")
        self.process.stdin.flush()
        return self.process.stdout.readline().rstrip("\n") or f"ended, status {self.process.wait()}"

    def same(self, *events):
        """Makes the step of each event, and compares its answer with what the monitor did."""
        for line, done in events:
            answer = self.step(line)
            if answer != done:
                sys.exit(f"{line}: the model: {answer}; the monitor: {done}")


class Handler:
    """The handler under test. This one is a toy: call yours here, and return what it did in the words of
    docs/SCRIPT.md."""

    def __init__(self, owed):
        self.owed = set(owed)

    def resolve(self, page):  # a message to the source, or UFFDIO_ZEROPAGE
        return f"requested {page:#x} for {page:#x}" if page in self.owed else f"zeroed {page:#x}"

    def place(self, page):  # UFFDIO_COPY
        self.owed.remove(page)
        return f"installed {page:#x} from {page:#x}"


def test(model, handler):
    model.same(("cpu 0 mmap 8192 rw", "cpu 0 at 0x10000"), ("cpu 0 store 0x10000 8 42", "cpu 0 done"))
    model.same(("start", "started epoch 1"), ("switch", "switched discard 0 owed 1"))
    model.same(("deliver", "took advise"), ("deliver", "took discard 0"), ("deliver", "took package owed 1"))
    model.same(("cpu 1 load 0x10000 8", "cpu 1 asleep"), ("dread", "read fault 0x10000 missing"))
    model.same(("dact", handler.resolve(0x10000)), ("back", "took request 0x10000"), ("serve", "asked 0x10000"))
    model.same(("push 0x10000", "sent page 0x10000"), ("deliver", "took page 0x10000"))
    model.same(("install", handler.place(0x10000)), ("retry 1", "cpu 1 value 0x2a"))
    model.same(("end", "end sent"), ("deliver", "took end"), ("back", "took done"))
    # The migration is complete, and the handler lives on.
    model.same(("cpu 0 load 0x11000 1", "cpu 0 asleep"), ("dread", "read fault 0x11000 missing"))
    model.same(("dact", handler.resolve(0x11000)), ("retry 0", "cpu 0 value 0x0"))


test(Model(sys.argv[1] if len(sys.argv) > 1 else LAUNCHER), Handler(owed=[0x10000]))
print("the handler does what the model says")
