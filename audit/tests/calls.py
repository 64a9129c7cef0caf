"""The calls of a stored log, into which `planted` puts faults."""

from dataclasses import dataclass, field
from typing import Optional

import common  # noqa: F401 (the path)
import uffdlog


@dataclass(eq=False)
class Call:
    """A call with its answer, which is None where it never returned. Its lines are numbered by tens, so that others fit
    between them."""

    word: str
    arguments: dict
    begin: int
    space: int
    tid: int
    end: Optional[int] = None
    answer: Optional[str] = None
    values: dict = field(default_factory=dict)
    messages: list = field(default_factory=list)
    runs: list = field(default_factory=list)

    @property
    def object(self):
        return self.arguments["O"][0] if "O" in self.arguments else None


def calls_of(name):
    """The calls of a log."""
    calls, by_call = [], {}
    for entry in uffdlog.entries(name):
        if entry.kind == "begin":
            call = Call(entry.word, dict(entry.values), 10 * entry.line, entry.pid, entry.tid)
            by_call[id(entry.call)] = (call, entry.call)
            calls.append(call)
        elif entry.kind == "end" and id(entry.call) in by_call:
            call = by_call.pop(id(entry.call))[0]
            call.end, call.answer, call.values = 10 * entry.line, entry.word, dict(entry.values)
            call.messages = [(message.word, dict(message.values)) for message in entry.call.messages]
            call.runs = [run.values for run in entry.call.runs]
    return calls
