"""The calls of a log, for scripts: the language uffdlog 1 of docs/UFFDLOG.md.

Each line is taken to be of the language, and one that is not is a ValueError: `uffd-audit` says what is wrong with a
log.
"""

import gzip
import zlib
from dataclasses import dataclass, field
from typing import NamedTuple, Optional
from urllib.parse import unquote_to_bytes

LONGEST_LINE = 4096
FIRST_LINE = "uffdlog 1"
HEAD = ("uffdlog", "recorder", "kernel", "page", "clock", "command")


class Form(NamedTuple):
    """A call: its fields, those after ok, and those that may follow an errno."""

    arguments: tuple
    answer: tuple = ()
    failed: tuple = ()


def form(arguments, answer="", failed=""):
    return Form(tuple(arguments.split()), tuple(answer.split()), tuple(failed.split()))


CALLS = {
    "open": form("WAY FLAGS", "O"),
    "api": form("O API FEATURES", "FEATURES IOCTLS"),
    "register": form("O START LENGTH MODE", "IOCTLS"),
    "unregister": form("O START LENGTH"),
    "wake": form("O START LENGTH"),
    "copy": form("O DESTINATION SOURCE LENGTH MODE", "BYTES", "BYTES"),
    "move": form("O DESTINATION SOURCE LENGTH MODE", "BYTES", "BYTES"),
    "zeropage": form("O START LENGTH MODE", "BYTES", "BYTES"),
    "continue": form("O START LENGTH MODE", "BYTES", "BYTES"),
    "poison": form("O START LENGTH MODE", "BYTES", "BYTES"),
    "writeprotect": form("O START LENGTH MODE"),
    "read": form("O ROOM", "COUNT"),
    "poll": form("O", "EVENTS"),
    "nonblock": form("O ONOFF"),
    "dup": form("O TARGET", "FD"),
    "close": form("O"),
    "scan": form("O START LENGTH", "COUNT"),
    "mmap": form("ADDRESS LENGTH PROTECTION FLAGS", "ADDRESS"),
    "munmap": form("ADDRESS LENGTH"),
    "mremap": form("ADDRESS OLD NEW FLAGS TO", "ADDRESS"),
    "madvise": form("ADDRESS LENGTH ADVICE"),
    "fork": form("", "PID"),
    "ioctl": form("O REQUEST"),  # one that the language does not have
}
MESSAGES = {
    "fault": ("ADDRESS", "FLAGS", "THREAD"),
    "fork": ("O",),
    "remap": ("FROM", "TO", "LENGTH"),
    "remove": ("START", "END"),
    "unmap": ("START", "END"),
}
# The fields of the other lines.
LINES = {"have": ("START", "LENGTH", "BITS"), "found": ("O",), "dropped": ("O",), "forked": ("PARENT",), "exit": ()}


@dataclass
class Call:
    """A call from its begin line on."""

    line: int
    time: int
    pid: int
    tid: int
    number: int
    word: str
    arguments: dict
    messages: list = field(default_factory=list)
    runs: list = field(default_factory=list)

    @property
    def object(self):
        return self.arguments["O"][0] if "O" in self.arguments else None


@dataclass
class Entry:
    """A line after the head. `call` is the call of begin, end, message and have, None where its begin line was lost;
    `word` the call's name, the answer's first word or the message's kind, and `values` its fields by name."""

    kind: str
    line: int
    time: int
    pid: int
    tid: int
    word: str = ""
    values: dict = field(default_factory=dict)
    call: Optional[Call] = None


def value_of(name, word):
    if name == "O":
        found, _, fd = word.partition(":")
        return int(found, 0), int(fd)
    return word if name == "WAY" else None if word == "-" else int(word, 0)


def values_of(names, words):
    return {name: value_of(name, word) for name, word in zip(names, words)}


def take_call_line(entry, calls, words):
    """Reads a line of a call; `calls` has those that have not returned, by process and number."""
    key = entry.pid, int(words[0])
    entry.word = words[1]
    if entry.kind == "begin":
        entry.values = values_of(CALLS[entry.word].arguments, words[2:])
        call = Call(entry.line, entry.time, entry.pid, entry.tid, key[1], entry.word, entry.values)
        entry.call = calls[key] = call
        return
    entry.call = calls.pop(key, None) if entry.kind == "end" else calls.get(key)
    if entry.kind == "message":
        entry.values = values_of(MESSAGES[entry.word], words[2:])
    elif entry.kind == "have":
        entry.values = values_of(LINES["have"], words[1:])
    elif entry.call:
        of = CALLS[entry.call.word]
        entry.values = values_of(of.answer if entry.word == "ok" else of.failed, words[2:])
    if entry.call and entry.kind != "end":
        (entry.call.messages if entry.kind == "message" else entry.call.runs).append(entry)


def entry_of(line, words, calls):
    """The entry of a line, by its words."""
    entry = Entry(words[3], line, int(words[0]), int(words[1]), int(words[2]))
    if entry.kind in ("begin", "end", "message", "have"):
        take_call_line(entry, calls, words[4:])
    elif entry.kind == "started":
        texts = [unquote_to_bytes(word) if word != "%" else b"" for word in words[5:]]
        entry.values = {"PARENT": int(words[4]), "WORDS": texts}
    else:
        entry.values = values_of(LINES[entry.kind], words[4:])
    return entry


def lines_of(name):
    """The lines of a log, without their line feeds; one whose name ends in .gz is unpacked."""
    with gzip.open(name, "rt", encoding="ascii") if name.endswith(".gz") else open(name, encoding="ascii") as file:
        try:
            for line in file:
                yield line.rstrip("\n")
        except (EOFError, zlib.error) as error:
            raise ValueError(f"{name}: {error}") from error


def entries(name):
    """The entries of a log, in their order."""
    calls = {}
    for line, text in enumerate(lines_of(name), 1):
        if line == 1 and text != FIRST_LINE:
            raise ValueError(f"{name}: the first line is not '{FIRST_LINE}'")
        words = text.split()
        if line > len(HEAD) and words[:1] != ["lost"]:
            try:
                entry = entry_of(line, words, calls)
            except (KeyError, IndexError, ValueError) as error:
                raise ValueError(f"{name}:{line}: not a line of the language") from error
            yield entry
