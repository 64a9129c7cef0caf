#!/usr/bin/env python3
"""A right handler of the destination, for conformance/handler: README.md, Your own handler.

conformance/handlers/right.py [--bug NAME | --way NAME] [--descriptor]

It makes the calls of calls.py: `next` and `read` for poll(2) and read(2), `copy`, `zeropage` and `wake` for the three
ioctls, `send` for send(2). With --bug it has one of the bugs of wrong.py, with --way it is right in one of the ways of
ways.py.
"""

import importlib
import struct
import sys

from calls import call

PAGE = 4096
# The messages of userfaultfd(2), and the frames of docs/FORMATS.md.
FAULT, REMAP, REMOVE, UNMAP = 0x12, 0x14, 0x15, 0x16
COPY, ZERO, PACKAGE, END, RESUME, REQUEST, RECV, DONE = 2, 3, 5, 6, 7, 0x81, 0x82, 0x83
RUNNING, ENDED = 1, 2


def runs_of(body, at, size):
    """A list of runs of pages, each of this many bytes: (first page, count) of each, and where the list ends."""
    (count,) = struct.unpack_from(">I", body, at)
    end = at + 4 + size * count
    return [struct.unpack_from(">II", body, start) for start in range(at + 4, end, size)], end


def runs_text(pages):
    """The bytes of a set of pages."""
    runs = []
    for page in sorted(pages):
        if runs and sum(runs[-1]) == page:
            runs[-1][1] += 1
        else:
            runs.append([page, 1])
    return struct.pack(">I", len(runs)) + b"".join(struct.pack(">II", *run) for run in runs)


class Handler:
    """owed: for each owed page, as it lies now, its number at the source. requested: those asked for, by that number.
    again: what was refused with EAGAIN, to be tried again. moved: the old places of which an UNMAP is still to come."""

    ROOM = 16

    def __init__(self):
        self.owed, self.requested, self.again, self.moved = {}, set(), [], []
        self.epoch, self.has_ended = 0, False

    def run(self):
        while True:
            if self.again:
                # (EAGAIN: an event is unread, or the call that had one has not gone on yet; so nothing may come that
                # could be waited for)
                self.take_messages([*self.read(self.ROOM)])
                continue
            kind, text = call("next")
            if kind == "frame":
                self.take_frame(bytes.fromhex(text))
            else:
                self.take_messages([bytes.fromhex(text), *self.read(self.ROOM - 1)])

    def read(self, most):
        """The messages that wait, at most this many: one read(2) with room for them."""
        for _ in range(most):
            answer = call("read")
            if answer == ["none"]:
                return
            yield bytes.fromhex(answer[1])

    # ---- messages ----

    def take_messages(self, messages):
        """Events first: they change which pages are owed, and once they are read a kernel lets ioctls through that are
        by the old table."""
        faults = []
        for message in messages:
            kind, *numbers = struct.unpack("<B7x3Q", message)
            if kind == FAULT:
                faults.append(numbers[1] // PAGE)
            else:
                self.take_event(kind, *numbers)
        again, self.again = self.again, []
        for act, *arguments in again:
            act(*arguments)
        for page in faults:
            self.take_fault(page)

    def take_fault(self, page):
        origin = self.owed.get(page)
        if origin is None:
            self.put(page, None, (self.take_fault, page))
        elif origin not in self.requested:
            self.requested.add(origin)
            self.request(origin)

    def take_event(self, kind, start, end, length):
        if kind == REMAP:
            self.move(start, end, length)
            end = start + length
            self.moved.append((start, end))
        elif kind == UNMAP and (start, end) in self.moved:
            self.moved.remove((start, end))  # (the kernel's own, after each REMAP: something else may be there by now)
            return
        else:
            self.drop(kind, start, end)
        self.wake_gone(kind, start, end)

    def move(self, start, target, length):
        first, last, there = start // PAGE, (start + length) // PAGE, target // PAGE
        moved = {page - first + there: self.owed.pop(page) for page in range(first, last) if page in self.owed}
        self.drop(REMAP, target, target + length)
        self.owed.update(moved)

    def drop(self, kind, start, end):
        self.owed = {page: origin for page, origin in self.owed.items() if not start <= page * PAGE < end}

    def wake_gone(self, kind, start, end):
        call("wake", hex(start), end - start)

    # ---- pages ----

    def put(self, page, data, act):
        """Makes a page present, and wakes who sleeps on it: whether that is done. `act` is what to do again after
        EAGAIN."""
        said = call("copy", hex(page * PAGE), 0, data.hex()) if data else call("zeropage", hex(page * PAGE), PAGE, 0)
        if said == ["refused", "EAGAIN"]:
            self.again.append(act)
        elif said in (["refused", "EEXIST"], ["refused", "ENOENT"]):
            self.wake_stale(page, said[1])
        elif said != ["ok"]:
            sys.exit(f"page {page:#x}: {' '.join(said)}")
        return said == ["ok"]

    def wake_stale(self, page, errno):
        """The fault is stale: its page is present, or no longer watched."""
        call("wake", hex(page * PAGE), PAGE)

    def take_copy(self, origin, data):
        """The bytes of a page, None where all are zeros. A page that is owed nowhere is dropped."""
        page = next((page for page, other in self.owed.items() if other == origin), None)
        if page is not None and self.put(page, data, (self.take_copy, origin, data)):
            del self.owed[page]
            self.requested.discard(origin)

    # ---- frames ----

    def take_frame(self, frame):
        _, tag, _, epoch, _ = struct.unpack_from(">BBHII", frame)
        body = frame[12:]
        if tag in (COPY, ZERO):
            self.take_copy(int.from_bytes(body[:4], "big"), body[4:] or None)
        elif tag == PACKAGE:
            self.epoch = epoch
            _, at = runs_of(body, 0, 9)
            self.owed = {page: page for first, count in runs_of(body, at, 8)[0] for page in range(first, first + count)}
        elif tag == END:
            self.has_ended = True
            self.send(DONE, b"")
        elif tag == RESUME:
            self.epoch = epoch
            self.report()

    def report(self):
        """What is still owed, and the requests that are open."""
        self.send(RECV, bytes([ENDED if self.has_ended else RUNNING]) + runs_text(self.owed.values()))
        for origin in self.requested & set(self.owed.values()):
            self.request(origin)

    def request(self, origin):
        self.send(REQUEST, struct.pack(">I", origin))

    def send(self, tag, body):
        """A frame to the source. While the channel is lost it is refused: the report after Resume says it again."""
        call("send", (struct.pack(">BBHII", 2, tag, 0, self.epoch, len(body)) + body).hex())


def main():
    handler = Handler
    for option, module in ("--bug", "wrong"), ("--way", "ways"):
        if option in sys.argv:
            handler = importlib.import_module(module).HANDLERS[sys.argv[sys.argv.index(option) + 1]]
    handler().run()


if __name__ == "__main__":
    main()
