#!/usr/bin/env python3
"""Tests the model of bench/model by what the pages say: its frames by the examples of docs/FORMATS.md, its nodes by
whole migrations.

python3 bench/check/model_tests.py [-v] [TEST ..]
"""

import random
import re
import unittest

import shared  # noqa: F401

import page
from model import frames
from model.frames import HIGH, LOW, PAGE, TAGS, decode, encode, read
from model.nodes import Destination, Refused, Source

FORMATS = (page.TOP / "docs" / "FORMATS.md").read_text()
ONES, TWOS = b"\1" * PAGE, b"\2" * PAGE
ALL = [(LOW, 4, 2)]
# One frame of each kind.
FRAMES = (
    ("advise", {}),
    ("page", {"page": LOW, "bytes": ONES}),
    ("zero", {"page": HIGH - 1}),
    ("discard", {"pages": [(LOW, 1), (LOW + 2, HIGH - LOW - 2)]}),
    (
        "package",
        {"areas": [(LOW, 1, 1), (LOW + 1, 3, 2)], "owed": [(LOW, 2)], "commands": [(), (0, 8), (6, 2, 0xFFFF)]},
    ),
    ("end", {"urgent": 2**32 - 1}),
    ("resume", {}),
    ("run", {"page": HIGH - 2, "count": 2, "bytes": ONES + TWOS}),
    ("request", {"page": LOW}),
    ("recv", {"state": "running", "owed": [(LOW, 1)]}),
    ("done", {}),
)
# Bodies that have the right length, and a number outside its limits.
BAD = (
    ("zero", {"page": LOW - 1}),
    ("request", {"page": HIGH}),
    ("run", {"page": HIGH - 1, "count": 2, "bytes": ONES + ONES}),
    ("run", {"page": LOW, "count": 3, "bytes": ONES + ONES}),
    ("discard", {"pages": [(LOW, 0)]}),
    ("discard", {"pages": [(LOW, 1), (LOW + 1, 1)]}),
    ("discard", {"pages": [(LOW + 2, 1), (LOW, 1)]}),
    ("discard", {"pages": [(LOW, HIGH)]}),
    ("package", {"areas": [(LOW, 1, 3)], "owed": [], "commands": [()]}),
    ("package", {"areas": [(LOW, 1, 1), (LOW + 1, 1, 1)], "owed": [], "commands": [()]}),
    ("package", {"areas": [(LOW, 262_145, 1)], "owed": [], "commands": [()]}),
    ("package", {"areas": ALL, "owed": [(LOW, 262_145)], "commands": [()]}),
    ("package", {"areas": ALL, "owed": [], "commands": []}),
    ("package", {"areas": ALL, "owed": [], "commands": 17 * [()]}),
    ("package", {"areas": ALL, "owed": [], "commands": [(1, 8)]}),
    ("package", {"areas": ALL, "owed": [], "commands": [(0, 3)]}),
    ("package", {"areas": ALL, "owed": [], "commands": [(0, 1, 256)]}),
    ("recv", {"state": "running", "owed": [(LOW, 262_145)]}),
)


def rows(heading):
    """The first cells of a table of FORMATS.md, by its heading."""
    table = FORMATS.partition(heading)[2].partition("\n\n")[0]
    return [line.strip("| ").split(" | ") for line in table.splitlines()[2:]]


def bytes_of(cell):
    return bytes.fromhex(re.search("`(.*?)`", cell)[1])


class Frames(unittest.TestCase):
    def test_examples_of_the_page(self):
        for what, cell in rows("| Frame | Bytes |"):
            text = bytes_of(cell) + (bytes(2 * PAGE) if what.startswith("Run") else b"")
            ((epoch, name, fields),), taken, end = read(text)
            self.assertEqual((taken, end), (len(text), ""), what)
            self.assertEqual(what.split()[0].strip(",").lower(), name)
            self.assertEqual(encode(epoch, name, fields), text, what)

    def test_refused_bytes_of_the_page(self):
        for cell, fault in rows("| Bytes that are refused | Fault |"):
            self.assertEqual(read(bytes_of(cell)), ([], 0, fault.strip("` ")), cell)

    def test_each_frame_is_read_as_it_was_written(self):
        self.assertEqual([name for name, _ in FRAMES], list(TAGS))
        for version in (1, 2):
            known = [(7, name, fields) for name, fields in FRAMES if (version, name) != (1, "run")]
            text = b"".join(encode(*it, version) for it in known)
            self.assertEqual(read(text), (known, len(text), ""))
            self.assertEqual(list(decode.frames(text)), known)
            for cut in random.Random(version).sample(range(len(text)), 50):
                found, taken, end = read(text[:cut])
                self.assertEqual((found, end), (known[: len(found)], "truncated" if taken < cut else ""))

    def test_numbers_outside_their_limits(self):
        for name, fields in BAD:
            self.assertEqual(read(encode(1, name, fields))[2], "BadField", (name, fields))

    def test_headers(self):
        advise = encode(1, "advise", {})
        cases = [
            (b"\3" + advise[1:], "BadTag"),
            (advise + encode(1, "advise", {}, 1), "BadTag"),
            (advise[:1] + b"\x09" + advise[2:], "BadTag"),
        ]
        cases += [
            (advise[:2] + b"\1" + advise[3:], "BadField"),
            (advise[:11] + b"\1", "BadLength"),
            (advise[:11], "truncated"),
        ]
        for text, wanted in cases:
            self.assertEqual(read(text)[2], wanted, text)

    def test_what_lines_say(self):
        lines = [frames.told(name, fields) for name, fields in FRAMES]
        self.assertEqual(lines[1:5], ["page 0x10000", "zero 0xfffff000", f"discard {HIGH - LOW - 1}", "package owed 2"])
        self.assertEqual(lines[7:10], ["run 0xffffe000 2", "request 0x10000", "recv running 1"])


class Linked(Destination):
    """A destination that puts what it sends on a wire."""

    def __init__(self):
        super().__init__(1)
        self.wire = []

    def transmit(self, name, fields):
        self.wire.append((self.epoch, name, fields))


class LinkedSource(Source):
    def __init__(self):
        super().__init__({LOW: ONES, LOW + 1: None, LOW + 2: TWOS})
        self.wire, self.urgent_wire = [], []

    def package(self):
        return ALL, [()]

    def transmit(self, name, fields, urgent=False):
        (self.urgent_wire if urgent else self.wire).append((self.epoch, name, fields))


class Nodes(unittest.TestCase):
    def setUp(self):
        self.source, self.destination = LinkedSource(), Linked()

    def deliver(self):
        return self.destination.take(*self.source.wire.pop(0))

    def back(self):
        return self.source.take(*self.destination.wire.pop(0))

    def refused(self, reason, call, *arguments):
        with self.assertRaises(Refused) as refused:
            call(*arguments)
        self.assertEqual(str(refused.exception), reason)

    def switch(self):
        self.assertEqual(self.source.begin(), "started epoch 1")
        self.assertEqual(self.source.switch(), "switched discard 0 owed 3")
        self.assertEqual([self.deliver() for _ in range(3)], ["took advise", "took discard 0", "took package owed 3"])

    def complete(self):
        """Pushes what remains, and ends the migration: the destination has all bytes."""
        for number in sorted(self.source.remaining):
            self.source.push(number)
            self.deliver()
            self.destination.install()
        self.source.end()
        self.assertEqual((self.deliver(), self.back()), ("took end", "took done"))
        self.assertEqual(self.destination.memory, {LOW: ONES, LOW + 1: None, LOW + 2: TWOS})
        self.assertEqual((self.source.phase, self.source.memory, self.destination.owed), ("released", {}, {}))

    def test_a_request_is_served_on_the_urgent_wire(self):
        self.switch()
        self.assertEqual(self.destination.request(LOW, LOW), "requested 0x10000 for 0x10000")
        self.assertEqual((self.back(), self.source.serve()), ("took request 0x10000", "asked 0x10000"))
        self.assertEqual(self.source.push_urgent(LOW), "sent page 0x10000")
        self.refused("PagesLeft", self.source.end)
        self.source.push(LOW + 2)
        self.assertEqual((self.source.push(LOW + 1), self.source.end()), ("sent zero 0x11000", "end sent"))
        self.assertEqual([self.deliver(), self.deliver()], ["took page 0x12000", "took zero 0x11000"])
        end = self.source.wire[0]
        self.refused("InstallFirst", self.destination.take, *end)
        self.assertEqual(self.destination.install(), "installed 0x12000 from 0x12000")
        self.destination.install()
        self.refused("UrgentFirst", self.destination.take, *end)
        self.assertEqual(self.destination.take_urgent(*self.source.urgent_wire.pop()), "took page 0x10000")
        self.destination.install()
        self.assertEqual((self.deliver(), self.back(), self.destination.phase), ("took end", "took done", "ended"))

    def test_a_lost_channel(self):
        self.switch()
        self.destination.request(LOW, LOW)
        self.source.push(LOW + 1)
        lost = self.source.wire.pop()
        self.destination.wire.clear()
        self.assertEqual((self.source.pause(), self.destination.pause()), ("paused source", "paused dest"))
        self.refused("OutOfPlace", self.destination.take, *lost)
        self.source.begin_epoch()
        self.refused("StaleEpoch", self.destination.take, 1, "resume", {})
        self.assertEqual(self.destination.take(2, "resume", {}), "took resume")
        self.assertEqual([self.back(), self.back()], ["took recv running 3", "took request 0x10000"])
        self.refused("StaleEpoch", self.destination.take, *lost)
        self.refused("StaleEpoch", self.source.push, LOW, 1)
        self.complete()

    def test_a_channel_lost_before_the_destination_runs(self):
        self.source.begin()
        self.deliver()
        self.destination.take(1, "page", {"page": LOW, "bytes": ONES})
        for is_switched in (False, True):
            self.source.pause(), self.destination.pause(), self.source.begin_epoch()
            self.destination.take(self.source.epoch, "resume", {})
            self.assertEqual(self.destination.kept, {})
            self.assertEqual(self.back(), "took recv notrun 0")
            self.assertEqual(self.source.phase, "stopped" if is_switched else "precopy")
            if not is_switched:
                self.source.switch()
                self.source.wire.clear()
        self.assertEqual([self.deliver(), self.deliver()], ["took discard 0", "took package owed 3"])
        self.complete()

    def test_a_page_that_has_moved_or_is_gone(self):
        self.switch()
        self.destination.owed = {LOW + 3: LOW, LOW + 2: LOW + 2}
        for number in (LOW, LOW + 1):
            self.source.push(number)
            self.deliver()
        self.assertEqual(
            [self.destination.install(), self.destination.install()],
            ["installed 0x13000 from 0x10000", "dropped 0x11000"],
        )
        self.refused("NothingThere", self.destination.install)

    def test_kept_copies(self):
        kept = [(1, "zero", {"page": LOW}), (1, "run", {"page": LOW, "count": 2, "bytes": TWOS + bytes(PAGE)})]
        for it in [(1, "advise", {}), *kept, (1, "discard", {"pages": [(LOW + 1, 1)]})]:
            self.destination.take(*it)
        self.assertEqual(self.destination.kept, {LOW: TWOS})
        right = {"areas": ALL, "owed": [(LOW + 1, 1)], "commands": [()]}
        for wrong in (
            {"owed": [(LOW, 1)]}, {"owed": [(LOW + 4, 1)]}, {"areas": [(LOW + 1, 3, 2)]}, {"commands": 2 * [()]}
        ):
            self.refused("BadFrame", self.destination.take, 1, "package", {**right, **wrong})
        self.destination.take(1, "package", right)
        self.assertEqual(self.destination.memory, {LOW: TWOS})

    def test_frames_that_a_phase_does_not_take(self):
        for phase, places in Destination.PLACES.items():
            self.destination.phase = phase
            for name, fields in FRAMES:
                if name not in places:
                    self.refused("OutOfPlace", self.destination.take, 1, name, fields)
                if phase != "running" or name not in ("page", "zero"):
                    self.refused("OutOfPlace", self.destination.take_urgent, 0, name, fields)

    def test_steps_of_a_source_out_of_place(self):
        for call in (self.source.switch, self.source.serve, self.source.end, self.source.pause):
            self.refused("Phase", call)
        self.switch()
        self.refused("Phase", self.source.begin)
        self.refused("NothingThere", self.source.serve)
        self.refused("PageNotSendable", self.source.push, LOW + 3)
        self.source.push(LOW)
        self.refused("NotRemaining", self.source.push, LOW)
        self.refused("OutOfPlace", self.source.take, 1, "done", {})
        self.refused("StaleEpoch", self.source.take, 2, "request", {"page": LOW})
        self.source.pause()
        for state, owed in (("notrun", [(LOW, 1)]), ("ended", [(LOW, 1)]), ("running", [(LOW + 3, 1)])):
            self.refused("BadOwed", self.source.take, 1, "recv", {"state": state, "owed": owed})


if __name__ == "__main__":
    unittest.main()
