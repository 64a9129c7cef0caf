"""What the model does in a script: the answer of each line, and the frame that the destination takes in it."""

import pathlib
import re
import tempfile
from collections import deque
from typing import Any, NamedTuple, Optional

from model import frames

from . import script
from .comparison import run
from .errors import NotAScript

# How many frames a step puts on a wire to the destination, by the first word of its answer.
PUTS = {"started": 1, "sent": 1, "switched": 2, "end": 1, "resumed": 1}


class Line(NamedTuple):
    """A line of a script. reply: that of the command which takes effect in it, None where none does or the run ends
    before it is said. frame: what the destination takes in it, as (epoch, name, fields)."""

    number: int
    text: str
    step: Any
    answer: str
    reply: Optional[str]
    frame: Optional[tuple]


class Wire:
    """sent: the frames that are on the way. to_come: those that are put on the wire later."""

    def __init__(self, data):
        self.to_come, self.sent = deque(frames.decode.frames(data)), deque()

    def put(self, count):
        for _ in range(count):
            self.sent.append(self.to_come.popleft())


class Link:
    """The two wires to the destination, of which a run has written all bytes."""

    def __init__(self, forward, urgent):
        self.forward, self.urgent = Wire(forward), Wire(urgent)
        self.is_switched = False

    def follow(self, word, answer):
        """The frame that the destination takes in a step, or None."""
        kind, *rest = answer.split()
        if kind == "broken":
            self.forward.sent.clear()
            self.urgent.sent.clear()
        elif kind in PUTS:
            self.is_switched |= kind == "switched"
            (self.urgent if word == "upush" else self.forward).put(PUTS[kind])
        elif kind == "took" and word in ("deliver", "udeliver"):
            return (self.forward if word == "deliver" else self.urgent).sent.popleft()
        elif (kind, *rest[:2]) == ("took", "recv", "notrun") and self.is_switched:
            self.forward.put(2)
        return None


def tapped(program, cpus, data):
    """The answers of a run, and the bytes of its wires to the destination."""
    with tempfile.TemporaryDirectory() as folder:
        wires = [pathlib.Path(folder) / name for name in ("forward", "urgent")]
        said, _ = run([*program, "run", "--cpus", str(cpus), "--wire", wires[0], "--urgent", wires[1]], data)
        return said.splitlines(), *(wire.read_bytes() if wire.exists() else b"" for wire in wires)


def replies_of(answers):
    """The reply to the command that takes effect in each line. That of a call which waits is in a later answer."""
    found, calls = [None] * len(answers), {}
    for at, answer in enumerate(answers):
        word, _, rest = answer.partition(" ")
        cpu, _, reply = rest.partition(" ")
        if word == "cpu" and reply.startswith("in call"):
            calls[cpu] = at
        elif word == "cpu" and reply != "asleep":
            found[at] = reply
        ended = re.search(r", cpu (\d+) (.+)$", answer)
        if ended:
            found[calls.pop(ended[1])] = ended[2]
    return found


def lines_of(program, cpus, data):
    """The lines of a script, by a run of the model."""
    steps = list(script.steps(data))
    answers, forward, urgent = tapped(program, cpus, data)
    if len(answers) != len(steps):
        raise NotAScript(f"{len(answers) + 1} of the lines that are steps")
    link = Link(forward, urgent)
    for (number, text, step), answer, reply in zip(steps, answers, replies_of(answers)):
        yield Line(number, text, step, answer, reply, link.follow(step.word, answer))
