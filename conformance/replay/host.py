"""One host: a process that takes the host protocol of ../README.md."""

import collections
import errno
import select
import subprocess
import sys

from .errors import Finding
from .pages import HIGH, PAGE, name, pages_of

# How many processes may be ending at the same time.
MOST_ENDING = 6


def number_range(text):
    return tuple(int(end, 16) for end in text.split("-"))


def refusal(value):
    """The reply to a map call of which the kernel returned minus an errno."""
    return "refused " + errno.errorcode.get(-value, str(-value))


def reap(process):
    try:
        process.wait(timeout=30)
    except subprocess.TimeoutExpired:
        process.kill()
        process.wait()


class Host:
    # The processes that were asked to end.
    ending = collections.deque()

    def __init__(self, settings, record):
        self.settings, self.record = settings, record
        words = settings.host + [str(settings.cpus)]
        self.process = subprocess.Popen(words, stdin=subprocess.PIPE, stdout=subprocess.PIPE)

    def ask(self, line):
        """A command's answer."""
        try:
            self.process.stdin.write(line.encode() + b"\n")
            self.process.stdin.flush()
        except OSError:
            raise Finding(f"the host has ended before: {line[:100]}") from None
        if not select.select([self.process.stdout], [], [], self.settings.patience)[0]:
            self.process.kill()
            raise Finding(f"the host does not answer: {line[:100]}")
        said = self.process.stdout.readline().decode()
        if not said:
            raise Finding(f"the host has ended at: {line[:100]}")
        if self.settings.trace:
            sys.stderr.write(f"    {line[:100]} -> {said[:100].strip()}\n")
        self.record.check("command of a host")
        return said.strip()

    def must(self, line):
        said = self.ask(line)
        if said != "ok":
            raise Finding(f"{line[:100]} -> {said}")

    def close(self):
        """Ends the process, and does not wait for it: that takes long on a busy machine, since each of its threads has
        to run once more."""
        try:
            self.process.stdin.write(b"quit\n")
            self.process.stdin.close()
        except OSError:
            self.process.kill()
        self.process.stdout.close()
        self.ending.append(self.process)
        while len(self.ending) > MOST_ENDING:
            reap(self.ending.popleft())

    # ---- what the kernel says of the map ----

    def kernel_areas(self):
        """(start, end, protection) of each area. The host has a page of its own at HIGH."""
        areas = []
        for word in self.ask("areas").split()[1:]:
            ends, protection, _ = word.split(":")
            start, end = number_range(ends)
            if start < HIGH:
                areas.append((start, min(end, HIGH), protection))
        return areas

    def areas(self):
        """The same, with adjacent areas of one protection as one: the model's areas."""
        joined = []
        for start, end, protection in self.kernel_areas():
            if joined and joined[-1][1] == start and joined[-1][2] == protection:
                joined[-1] = (joined[-1][0], end, protection)
            else:
                joined.append((start, end, protection))
        return joined

    def registered(self):
        """The ranges that are registered in some mode."""
        ranges = []
        for word in self.ask("areas s").split()[1:]:
            ends, _, modes = word.split(":")
            start, end = number_range(ends)
            if start < HIGH and modes != "0":
                ranges.append((start, min(end, HIGH)))
        return ranges

    def present(self):
        return pages_of([number_range(run) for run in self.ask("present").split()[1:]])

    def is_present(self, page):
        return self.ask(f"bits {name(page)}").startswith("1")

    def is_protected(self, page):
        return self.ask(f"bits {name(page)}") == "1 1"

    def page(self, page):
        """The bytes of a present page, or None where all are zeros."""
        said = self.ask(f"page {name(page)}")
        if said == "absent" or said.startswith("refused"):
            raise Finding(f"page {name(page)}: {said}")
        return None if said == "zero" else bytes.fromhex(said)

    def put(self, page, data):
        """Makes a missing page present, by UFFDIO_COPY or, for zeros, by UFFDIO_ZEROPAGE. A thread that sleeps on it is
        woken."""
        self.must(f"copy {name(page)} 0 {data.hex()}" if data else f"zeropage {name(page)} {PAGE} 0")

    def register(self, mode):
        """Registers each area: mode 1 for missing faults, 3 for write-protect faults too."""
        for start, end, _ in self.areas():
            self.must(f"register 0x{start:x} {end - start} {mode}")
