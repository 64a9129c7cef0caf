"""Random frames for what compares a program with the nodes of bench/model."""

import shared  # noqa: F401

from model.frames import PAGE, TAGS, encode, runs_of
from model.nodes import Destination

LAST_EPOCH = 2**32 - 1


class Drawing:
    """Draws frames of some pages for a destination. `wrong` is the share of them that have another epoch than they
    should, and of Packages that do not fit; `light` that of copies which are drawn as zeros, so that a stream is
    short."""

    def __init__(self, random, pages, cpus, wrong, light=0):
        self.random, self.pages, self.cpus, self.wrong, self.light = random, pages, cpus, wrong, light
        self.destination = Destination(cpus)

    def chance(self, part):
        return self.random.random() < part

    def some(self, pages, part):
        return {page for page in pages if self.chance(part)}

    def name(self, place, part):
        """The name of a frame, with this chance one of a place, else any."""
        name = self.random.choice(sorted(place, key=TAGS.get) if place and self.chance(part) else list(TAGS))
        return "zero" if name in ("page", "run") and self.chance(self.light) else name

    def frame(self, name, own, page=None, version=None):
        """A frame for a node of an epoch, and its text, of either version if none is given."""
        epoch, fields = self.epoch(own, name), self.fields(name, page or self.random.choice(self.pages))
        version = 2 if name == "run" else version or self.random.choice((1, 2))
        return (epoch, name, fields), encode(epoch, name, fields, version)

    def epoch(self, own, name):
        if name == "advise":
            return self.random.choice((0, 1, 2, self.random.getrandbits(32)))
        right = own + 1 if name == "resume" else own
        if self.chance(self.wrong):
            right = self.random.choice((0, own, own - 1, own + 1, own ^ 1, LAST_EPOCH if self.chance(0.1) else 1))
        return min(max(right, 0), LAST_EPOCH)

    def fields(self, name, page):
        if name == "page":
            return {"page": page, "bytes": bytes(PAGE) if self.chance(0.1) else self.random.randbytes(PAGE)}
        if name == "run":
            # (64 pages are the most)
            count = min(64 if self.chance(0.02) else self.random.randrange(1, 4), self.pages[-1] + 1 - page)
            return {"page": page, "count": count, "bytes": self.random.randbytes(count * PAGE)}
        if name in ("zero", "request"):
            return {"page": page}
        if name == "discard":
            return {"pages": runs_of(self.some(self.pages, 0.2))}
        if name == "end":
            return {"urgent": self.destination.urgent_taken if self.chance(0.6) else self.random.randrange(4)}
        return self.package() if name == "package" else self.recv() if name == "recv" else {}

    def command(self):
        width = self.random.choice((1, 2, 4, 8))
        address = self.random.getrandbits(self.random.choice((20, 64))) // width * width
        return self.random.choice(((), (address, width), (address, width, self.random.randrange(256**width))))

    def package(self):
        """Mostly one that fits what the destination keeps."""
        first, count, cpus = self.pages[0], len(self.pages), self.cpus
        cut = self.random.randrange(1, count)
        areas = [(first, cut, 1), (first + cut, count - cut, self.random.choice((0, 2)))]
        if self.chance(0.5):
            areas = [(first, count, self.random.randrange(3))]
        owed = set() if self.chance(0.3) else self.some(set(self.pages) - set(self.destination.kept), 0.15)
        if self.chance(self.wrong):
            wrong = self.random.randrange(4)
            if wrong == 0:
                cpus = cpus % 16 + 1
            elif wrong == 1:
                owed = self.some(self.pages, 0.2)
            elif wrong == 2:
                areas = [(first, cut, 2)]
            else:
                areas = [(first, 1, 2), (first + count - 1, 1, 2)]
        return {"areas": areas, "owed": runs_of(owed), "commands": [self.command() for _ in range(cpus)]}

    def recv(self):
        state = self.random.choice(("notrun", "running", "running", "ended"))
        owed = self.some(self.pages[::2], 0.3) if state == "running" else set()
        if self.chance(0.2):
            owed = self.some(self.pages, 0.2)
        return {"state": state, "owed": runs_of(owed)}
