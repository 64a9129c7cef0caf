#!/usr/bin/env python3
"""A source of your own, as small as it can be: live dest --feed live/example_source.py --memory 4M

Its standard output is the wire to the destination, its standard input the wire back: a hello, and then frames of
version 2, as docs/FORMATS.md has them. It sends half of a guest's memory while the guest could still run, then the
Package, and after it the rest: each page that is asked for first. What is of this guest is in `Guest`; a program with a
guest of its own has that in its place. The options are those of the destination.
"""

import argparse
import os
import queue
import struct
import sys
import threading

LOW_PAGE, MOST_OF_RUN, EPOCH = 0x10, 64, 1
HELLO_BYTES, REASON = 192, 80
ADVISE, PAGE, ZERO, DISCARD, PACKAGE, END, RUN, REQUEST, DONE = 1, 2, 3, 4, 5, 6, 8, 0x81, 0x83
READ_WRITE, WAITS_FOR_NOTHING = 2, 0


class Guest:
    """Memory as guest.c fills it, before the first operation of a thread."""

    def __init__(self, plan):
        self.plan = plan

    @staticmethod
    def mix(x):
        x = x + 0x9E3779B97F4A7C15 & 2**64 - 1
        x = (x ^ x >> 30) * 0xBF58476D1CE4E5B9 & 2**64 - 1
        x = (x ^ x >> 27) * 0x94D049BB133111EB & 2**64 - 1
        return x ^ x >> 31

    def page(self, number):
        """Its bytes, or None if it was never touched."""
        pages, _, seed, *_ = self.plan
        part = self.mix(seed << 32 | number) % 100
        if number == 0:
            plan = 0
            for value in self.plan:
                plan = self.mix(plan ^ value)
            words = [0] * 255 + [plan | 1] + [0] * 256
        elif part < 15:
            words = None if part < 10 else [0] * 512
        else:
            words = [((number * 512 + word) ^ seed << 32) * 0x9E3779B97F4A7C15 % 2**64 | 1 for word in range(512)]
        return words and struct.pack("<512Q", *words)


def runs(pages):
    """A set of pages as a frame has it: a count, and the first page and the number of pages of each run."""
    found = []
    for page in sorted(pages):
        if found and sum(found[-1]) == page:
            found[-1][1] += 1
        else:
            found.append([page, 1])
    return struct.pack(">I", len(found)) + b"".join(struct.pack(">II", *run) for run in found)


def write(data):
    try:
        while data:
            data = data[os.write(1, data):]
    except (BrokenPipeError, ConnectionResetError):
        sys.exit("the destination has ended")


def send(tag, body=b""):
    write(struct.pack(">BBHII", 2, tag, 0, EPOCH, len(body)) + body)


def send_page(page, data):
    if any(data):
        send(PAGE, struct.pack(">I", page) + data)
    else:
        send(ZERO, struct.pack(">I", page))


def send_runs(memory):
    """Each page of a dictionary, and those that follow each other in one frame."""
    pages = sorted(memory)
    while pages:
        count = 1
        while count < min(len(pages), MOST_OF_RUN) and pages[count] == pages[0] + count:
            count += 1
        send(RUN, struct.pack(">II", pages[0], count) + b"".join(memory[page] for page in pages[:count]))
        pages = pages[count:]


def read(length):
    data = b""
    while len(data) < length:
        try:
            piece = os.read(0, length - len(data))
        except ConnectionResetError:  # (it has ended, and had not read all)
            piece = b""
        if not piece:
            print("the destination has ended", file=sys.stderr)
            os._exit(1)  # (from this thread, while the other one waits)
        data += piece
    return data


def listen(asked):
    """The pages that are asked for; None once the destination has all."""
    tag = 0
    while tag != DONE:
        _, tag, _, _, length = struct.unpack(">BBHII", read(12))
        body = read(length)
        asked.put(struct.unpack(">I", body)[0] if tag == REQUEST else None)


def greet(pages, threads):
    """Says the hello, and ends with the destination's reason where the two do not fit."""
    write(struct.pack(">6sBBIQIIHHQIHH144x", b"pmlive", 2, 0, EPOCH, 1, 0, pages, 1, threads, 0, pages, threads, 0))
    reason = read(HELLO_BYTES)[REASON:].rstrip(b"\0").decode("ascii")
    if reason:
        sys.exit(f"the destination refuses: {reason}")


def main():
    parser = argparse.ArgumentParser()
    for name, usual in (("memory", "256M"), ("threads", 4), ("seed", 1), ("cold", 4), ("given", 0), ("shared", 0)):
        parser.add_argument(f"--{name}", type=type(usual), default=usual)
    options = parser.parse_args()
    count = int(options.memory[:-1]) * {"M": 256, "G": 262144}[options.memory[-1]]
    guest = Guest((count, options.threads, options.seed, options.cold, options.given, options.shared))
    memory = {LOW_PAGE + number: data for number in range(count) if (data := guest.page(number))}
    early = {page: data for page, data in memory.items() if page < LOW_PAGE + count // 2}
    changed = [page for page in early if page % 16 == 0]  # (nothing changes here: these are sent again as if it did)
    greet(count, options.threads)
    send(ADVISE)
    send_runs(early)
    owed = {page: data for page, data in memory.items() if page not in early or page in changed}
    send(DISCARD, runs(changed))
    areas = struct.pack(">IIIB", 1, LOW_PAGE, count, READ_WRITE)
    send(PACKAGE, areas + runs(owed) + bytes([options.threads] + [WAITS_FOR_NOTHING] * options.threads))
    asked = queue.Queue()
    threading.Thread(target=listen, args=(asked,), daemon=True).start()
    while owed:
        page = next(iter(owed)) if asked.empty() else asked.get()
        if page in owed:  # (it may be on its way)
            send_page(page, owed.pop(page))
    send(END, struct.pack(">I", 0))
    while asked.get() is not None:
        pass


if __name__ == "__main__":
    main()
