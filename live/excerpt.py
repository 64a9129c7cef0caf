"""A small script out of the merged one of a migration: the steps of a few pages, and all those that concern no page.

What the nodes do with a page does not depend on the others, but for frames and events of several pages: here the pages
of a run are sent one by one, and an event of several is left out.
"""

import collections
import re

PAGE = 4096
# Of each fate this number of pages, those which met it nearest to the switch.
EACH = 2
FATE = re.compile("requested|dropped|read remove|unprotected|zeroed|took request")
LARGEST = 64
ADDRESS = re.compile("0x([0-9a-f]+)")


class Reader:
    """Goes over the lines of a merged script, and says which pages each is about: a range, or None for a line that
    concerns no page."""

    def __init__(self):
        self.waiting = {}  # what the command of each processor is about

    def pages(self, order, answer):
        kind = order[:5]
        if kind[:4] == "cpu ":
            return self.of_command(order.split())
        if kind == "retry":
            return self.waiting.get(order[6:])
        at = ADDRESS.search(answer)
        if not at:
            return None
        first = int(at[1], 16) // PAGE
        if answer.startswith(("sent run", "took run")):
            return range(first, first + int(answer.rpartition(" ")[2]))
        if answer.startswith(("read remove", "read unmap")):
            return range(first, int(ADDRESS.search(answer, at.end())[1], 16) // PAGE)
        return range(first, first + 1)

    def of_command(self, words):
        if words[2] == "mmap":
            return None
        first = int(words[3], 16) // PAGE
        pages = range(first, first + (int(words[4]) // PAGE if words[2] in ("dontneed", "munmap") else 1))
        self.waiting[words[1]] = pages
        return pages


def lines_of(script):
    """(order, answer) of each step."""
    return [line.partition(" => ")[::2] for line in script.lines if line[0] != "#"]


class Fates:
    """For each fate the pages that met it, with the least number of lines from there to the switch."""

    def __init__(self, lines):
        self.found, self.sent, self.flying = collections.defaultdict(dict), set(), set()
        reader, switch = Reader(), next((at for at, (order, _) in enumerate(lines) if order == "switch"), 0)
        for at, (order, answer) in enumerate(lines):
            pages, self.distance = reader.pages(order, answer), abs(at - switch)
            if order == "break":
                self.note("lost", self.flying)
                self.flying.clear()
            elif pages is not None and len(pages) <= LARGEST:
                self.see(answer, pages)

    def note(self, fate, pages):
        for page in pages:
            self.found[fate][page] = min(self.distance, self.found[fate].get(page, self.distance))

    def see(self, answer, pages):
        fate = FATE.match(answer)
        if fate and len(pages) == 1:
            self.note(fate[0], pages)
        elif answer.startswith("sent "):
            self.note("sent again", self.sent.intersection(pages))
            self.sent.update(pages)
            self.flying.update(pages)
        elif answer.startswith("took "):
            self.flying.difference_update(pages)


def choose(script):
    """Some pages of each fate."""
    found = Fates(lines_of(script)).found
    return {page for pages in found.values() for page in sorted(pages, key=pages.get)[:EACH]}


def excerpt(script, pages):
    """A script of these pages alone, without answers."""
    reader, lines = Reader(), [script.lines[0]]
    for order, answer in lines_of(script):
        about = reader.pages(order, answer)
        here = 1 if about is None else sum(page in pages for page in about)
        if not here or (about is not None and len(about) > 1 and not answer.startswith(("sent run", "took run"))):
            continue
        lines += ["send" if order.startswith("sendrun") else order] * here
    return "".join(f"{line}\n" for line in lines)
