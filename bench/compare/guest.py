"""The bytes of a guest, followed through the lines of a script and their answers, and what has happened to each of
them."""

import collections
import re

PAGE = 4096
# What has happened to a byte since it was stored: its page was moved while the guest ran at the destination; its page
# was installed there; an older copy of that page had come before the guest did, and was discarded.
MOVED, INSTALLED, RESENT = 1, 2, 4

# What is counted: loads that are answered where the guest runs at the destination, and those whose bytes other than 0
# have these marks.
LOADS, NOT_ZERO = "loads at the destination", "loads there of bytes that are not all 0"
MARKED = {
    INSTALLED: "loads there of bytes that were installed",
    INSTALLED | MOVED: "loads there of bytes that were installed and moved",
    INSTALLED | RESENT: "loads there of bytes that were discarded and sent again",
}


def number(word):
    return int(word, 0)


def pages_of(start, length):
    return range(start // PAGE, (start + length + PAGE - 1) // PAGE)


def replies(lines, answers):
    """The reply of each map call that waits for its messages, by the index of its line. One whose call does not end has
    none."""
    calls, found = {}, {}
    for index, (line, answer) in enumerate(zip(lines, answers)):
        waits = re.fullmatch(r"cpu (\d+) in call \d+", answer)
        if waits:
            calls[waits[1]] = index
        ends = re.search(r", (cpu (\d+) .*)$", answer)
        if ends:
            found[calls.pop(ends[2])] = ends[1]
    return found


class Guest:
    """The memory of the guest. Each byte that was stored is a number and its marks."""

    def __init__(self):
        self.pages = collections.defaultdict(dict)
        self.waiting, self.kept = {}, set()
        self.is_moved, self.is_known, self.counts = False, True, collections.Counter()

    def take(self, line, answer, reply):
        """Follows one line. `reply` is that of a map call, which may have arrived later."""
        words = line.split()
        if answer.startswith("refused ") or words[0] not in ("cpu", "retry"):
            self.follow(answer.split())
            return
        command = self.waiting.pop(words[1]) if words[0] == "retry" else words[2:]
        if answer.endswith(" asleep"):
            self.waiting[words[1]] = command
            return
        self.do(command, reply.split()[2:])

    def do(self, command, reply):
        name, *rest = command
        numbers = [number(word) for word in rest if word[0].isdigit()]
        if name == "load" and reply[0] == "value":
            self.load(*numbers, number(reply[1]))
        elif name == "store" and reply == ["done"]:
            self.store(*numbers)
        elif name == "mmap" and reply[0] in ("at", "in"):
            self.clear(number(reply[1]) if reply[0] == "at" else numbers[-1], numbers[0])
        elif name in ("munmap", "dontneed") and (reply[0] in ("done", "in") or reply == ["refused", "ENOMEM"]):
            self.clear(*numbers)
        elif name == "mremap" and reply[0] in ("at", "in"):
            self.move(*numbers[:3], self.target(numbers, reply))

    def target(self, numbers, reply):
        """Where an mremap has moved its range. It is not known of a call that grows it and does not end."""
        if reply[0] == "at":
            return number(reply[1])
        start, old, new, *fixed = numbers
        self.is_known = bool(fixed) or new <= old
        return fixed[0] if fixed else start

    def clear(self, start, length):
        for page in pages_of(start, length):
            self.pages.pop(page, None)

    def move(self, start, old, new, target):
        taken = [self.pages.pop(page, {}) for page in pages_of(start, old)]
        if target != start:
            self.clear(target, new)
        for page, memory in zip(pages_of(target, new), taken):
            if target != start and self.is_moved:
                memory = {place: (byte, marks | MOVED) for place, (byte, marks) in memory.items()}
            self.pages[page] = memory

    def store(self, address, width, value):
        page, place = divmod(address, PAGE)
        for index in range(width):
            self.pages[page][place + index] = value >> 8 * index & 0xFF, 0

    def load(self, address, width, value):
        if not self.is_known:
            return
        page, place = divmod(address, PAGE)
        found = [self.pages[page].get(place + index, (0, 0)) for index in range(width)]
        if sum(byte << 8 * index for index, (byte, _) in enumerate(found)) != value:
            raise ValueError(f"a load of {width} bytes at {address:#x} is {value:#x}, and {found} was stored")
        if not self.is_moved:
            return
        self.counts[LOADS] += 1
        marks = [marks for byte, marks in found if byte]
        self.counts[NOT_ZERO] += bool(marks)
        for mark, name in MARKED.items():
            self.counts[name] += any(had & mark == mark for had in marks)

    def follow(self, words):
        """Follows what the nodes do."""
        if words[:2] == ["took", "package"]:
            self.is_moved = True
        elif words[0] == "took" and words[1] in ("page", "zero", "run") and not self.is_moved:
            pages = int(words[3]) if words[1] == "run" else 1
            self.kept.update(range(number(words[2]), number(words[2]) + pages * PAGE, PAGE))
        elif words[0] == "installed":
            self.install(number(words[1]), number(words[3]))

    def install(self, address, origin):
        page = address // PAGE
        marks = INSTALLED | RESENT * (origin in self.kept) | MOVED * (address != origin)
        self.pages[page] = {place: (byte, old | marks) for place, (byte, old) in self.pages[page].items()}
