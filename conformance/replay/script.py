"""The lines of a script: docs/SCRIPT.md.

A command of a processor is one of the classes below. Its text is that of a script, of a transcript and of the host
protocol alike."""

from dataclasses import dataclass
from typing import NamedTuple, Optional

from .errors import NotAScript
from .pages import HIGH, PAGE

LONGEST_LINE = 256
MOST_IN_A_RUN = 64
PLAIN = (
    "start", "round", "send", "sread", "sact", "switch", "dread", "dact", "install", "serve", "end", "break", "resume",
    "progress",
)
ALL_BYTES = 1 << 64


@dataclass(frozen=True)
class Load:
    addr: int
    width: int

    def text(self):
        return f"load 0x{self.addr:x} {self.width}"


@dataclass(frozen=True)
class Store:
    addr: int
    width: int
    value: int

    def text(self):
        return f"store 0x{self.addr:x} {self.width} 0x{self.value:x}"


@dataclass(frozen=True)
class Mmap:
    """place: fixed, noreplace or None."""

    length: int
    protection: str
    place: Optional[str] = None
    addr: int = 0

    def text(self):
        where = f" {self.place} 0x{self.addr:x}" if self.place else ""
        return f"mmap {self.length} {self.protection}{where}"


@dataclass(frozen=True)
class Munmap:
    addr: int
    length: int

    def text(self):
        return f"munmap 0x{self.addr:x} {self.length}"


@dataclass(frozen=True)
class Mremap:
    addr: int
    old: int
    new: int
    may_move: bool = False
    target: Optional[int] = None

    def text(self):
        may_move = " maymove" if self.may_move else ""
        fixed = "" if self.target is None else f" fixed 0x{self.target:x}"
        return f"mremap 0x{self.addr:x} {self.old} {self.new}{may_move}{fixed}"


@dataclass(frozen=True)
class Dontneed:
    addr: int
    length: int

    def text(self):
        return f"dontneed 0x{self.addr:x} {self.length}"


class Step(NamedTuple):
    """A line that is a step: its first word, and what follows it."""

    word: str
    arguments: tuple = ()


def number(word, most=ALL_BYTES - 1):
    digits, base, longest = ("0123456789abcdef", 16, 16) if word.startswith("0x") else ("0123456789", 10, 20)
    figures = word[2:] if base == 16 else word
    if not 1 <= len(figures) <= longest or any(figure not in digits for figure in figures.lower()):
        raise NotAScript
    value = int(figures, base)
    if value > most:
        raise NotAScript
    return value


def mremap(words):
    may_move, target, rest = False, None, words[3:]
    if rest[:1] == ["maymove"]:
        may_move, rest = True, rest[1:]
    if len(rest) == 2 and rest[0] == "fixed":
        target, rest = number(rest[1]), []
    if rest:
        raise NotAScript
    return Mremap(number(words[0]), number(words[1]), number(words[2]), may_move, target)


def mmap(words):
    if words[1] not in ("none", "r", "rw"):
        raise NotAScript
    if len(words) == 2:
        return Mmap(number(words[0]), words[1])
    if len(words) == 4 and words[2] in ("fixed", "noreplace"):
        return Mmap(number(words[0]), words[1], words[2], number(words[3]))
    raise NotAScript


def command(words):
    kind, rest = words[0], words[1:]
    if kind == "load" and len(rest) == 2:
        return Load(number(rest[0]), number(rest[1], 255))
    if kind == "store" and len(rest) == 3:
        return Store(number(rest[0]), number(rest[1], 255), number(rest[2]))
    if kind in ("munmap", "dontneed") and len(rest) == 2:
        return (Munmap if kind == "munmap" else Dontneed)(number(rest[0]), number(rest[1]))
    if kind == "mmap" and len(rest) >= 2:
        return mmap(rest)
    if kind == "mremap" and len(rest) >= 3:
        return mremap(rest)
    raise NotAScript


def step(words):
    word, rest = words[0], words[1:]
    if word == "cpu" and len(rest) >= 2:
        return Step(word, (number(rest[0], 255), command(rest[1:])))
    if word == "retry" and len(rest) == 1:
        return Step(word, (number(rest[0], 255),))
    if word in PLAIN and not rest:
        return Step(word)
    if word in ("deliver", "back", "udeliver") and len(rest) <= 1:
        return Step(word, (number(rest[0]) if rest else ALL_BYTES,))
    if word == "notice" and rest in (["source"], ["dest"]):
        return Step(word, (rest[0],))
    if word == "sendrun" and len(rest) == 1 and 1 <= number(rest[0]) <= MOST_IN_A_RUN:
        return Step(word, (number(rest[0]),))
    if word in ("push", "upush") and len(rest) in (1, 2) and number(rest[0]) % PAGE == 0 and number(rest[0]) < HIGH:
        return Step(word, (number(rest[0]) // PAGE, number(rest[1], (1 << 32) - 1) if len(rest) == 2 else None))
    raise NotAScript


def parse(line):
    """The step of a line, or None where it is skipped."""
    if line.lstrip(b" ")[:1] in (b"", b"#"):
        return None
    try:
        return step([word for word in line.decode().split(" ") if word])
    except UnicodeDecodeError:
        raise NotAScript from None


def lines(data):
    """The lines of a script without their ends; None for one that is too long."""
    *ended, last = data.split(b"\n")
    for line in ended:
        if len(line) > LONGEST_LINE:
            yield None
        else:
            yield line[:-1] if line.endswith(b"\r") else line
    if last:
        yield last if len(last) <= LONGEST_LINE else None


def steps(data):
    """The steps of a script, each with the number of its line and its text."""
    for number_of_line, line in enumerate(lines(data), 1):
        try:
            if line is None:
                raise NotAScript
            found = parse(line)
        except NotAScript:
            raise NotAScript(number_of_line) from None
        if found:
            yield number_of_line, line.decode().strip(), found


def entry(cpu, made, reply):
    """A line of a transcript."""
    return f"{cpu} {made.text()} => {reply}"
