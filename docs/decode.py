#!/usr/bin/env python3
"""Decodes the frames of a wire, of either version, and writes a line for each: docs/decode.py FILE

It reads the form alone: `postmig frames` also refuses a page that no guest may map, say, and a frame out of its turn.
`frames` yields (epoch, name, fields), and raises ValueError where the bytes are not frames. docs/FORMATS.md has the
format."""

import sys

NAMES = {
    1: "advise", 2: "page", 3: "zero", 4: "discard", 5: "package", 6: "end", 7: "resume", 8: "run", 0x81: "request",
    0x82: "recv", 0x83: "done",
}
STATES = ("notrun", "running", "ended")
COMMANDS = ((), (8, 1), (8, 1, 8))  # nothing, a load, a store: the sizes of their numbers


class Body:
    def __init__(self, data):
        self.data, self.at = data, 0

    def bytes(self, count):
        self.at += count
        if self.at > len(self.data):
            raise ValueError("a body is too short")
        return self.data[self.at - count : self.at]

    def number(self, size=4):
        return int.from_bytes(self.bytes(size), "big")

    def list(self, *sizes):
        """A count, and then numbers of these sizes for each."""
        return [tuple(self.number(size) for size in sizes) for _ in range(self.number())]

    def command(self):
        return tuple(self.number(size) for size in self.one_of(COMMANDS))

    def one_of(self, values):
        number = self.number(1)
        if number >= len(values):
            raise ValueError(f"there is no number {number} of {len(values)}")
        return values[number]


def fields(name, body):
    if name in ("zero", "request"):
        return {"page": body.number()}
    if name == "page":
        return {"page": body.number(), "bytes": body.bytes(4096)}
    if name == "run":
        first, count = body.number(), body.number()
        return {"page": first, "count": count, "bytes": body.bytes(4096 * count)}
    if name == "discard":
        return {"pages": body.list(4, 4)}
    if name == "package":
        areas, owed = body.list(4, 4, 1), body.list(4, 4)
        return {"areas": areas, "owed": owed, "commands": [body.command() for _ in range(body.number(1))]}
    if name == "end":
        return {"urgent": body.number()}
    return {"state": body.one_of(STATES), "owed": body.list(4, 4)} if name == "recv" else {}


def frames(data):
    at = 0
    while at < len(data):
        head = data[at : at + 12]
        if (
            len(head) < 12
            or head[0] not in (1, 2)
            or head[0] != data[0]
            or head[1] not in NAMES
            or head[2:4] != b"\0\0"
        ):
            raise ValueError(f"no header at byte {at}")
        body = Body(data[at + 12 : at + 12 + int.from_bytes(head[8:], "big")])
        yield int.from_bytes(head[4:8], "big"), NAMES[head[1]], fields(NAMES[head[1]], body)
        if body.at != len(body.data) or body.at != int.from_bytes(head[8:], "big"):
            raise ValueError(f"a body of another length at byte {at}")
        at += 12 + body.at


def shown(key, value):
    """A field as text: pages as the addresses at which they begin and end, in place of their numbers."""
    if key == "page":
        return f"page {4096 * value:#x}"
    if key not in ("pages", "owed", "areas"):
        return f"{key} {value}"
    runs = (
        ":".join([f"{4096 * first:#x}-{4096 * (first + count):#x}", *map(str, rest)]) for first, count, *rest in value
    )
    return " ".join([key, *runs])


def main():
    if len(sys.argv) != 2:
        sys.exit("usage: docs/decode.py FILE")
    try:
        with open(sys.argv[1], "rb") as file:
            data = file.read()
        for epoch, name, found in frames(data):
            print(f"epoch {epoch} {name}", *(shown(key, value) for key, value in found.items() if key != "bytes"))
    except OSError as fault:
        sys.exit(f"{sys.argv[1]}: {fault.strerror}")
    except ValueError as fault:
        sys.exit(f"{sys.argv[1]}: {fault}")


if __name__ == "__main__":
    main()
