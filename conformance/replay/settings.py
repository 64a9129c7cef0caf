"""How scripts are replayed, and what is noted on the way."""

import pathlib
from collections import Counter
from dataclasses import dataclass, field

FOLDER = pathlib.Path(__file__).resolve().parent.parent
HOST = FOLDER / "out" / "host"


@dataclass
class Settings:
    """host: the words that start a host. eager: each fault is read as soon as its thread sleeps. late: a dontneed is
    left asleep on its message. trace: each command of a host is printed. patience: the seconds that a host may take for
    an answer. serial, skip_old: of raw.py. descriptor: of handler, whose program gets a descriptor."""

    cpus: int = 2
    host: list = field(default_factory=lambda: [str(HOST)])
    eager: bool = False
    late: bool = False
    trace: bool = False
    patience: float = 20
    serial: bool = False
    skip_old: bool = False
    descriptor: bool = False


class Record:
    """The tags of the line that is replayed, and what was looked at beside the lines."""

    def __init__(self):
        self.tags = []
        self.checks = Counter()

    def tag(self, tag):
        if tag not in self.tags:
            self.tags.append(tag)

    def check(self, what):
        self.checks[what] += 1
