"""The wires between the nodes, which carry the bytes of frames."""

from collections import deque

from model import frames

from .errors import Finding, Refused


class Wire:
    def __init__(self):
        self.sent, self.held = deque(), 0  # held: the bytes of the first frame that have arrived

    def put(self, epoch, name, fields):
        self.sent.append(frames.encode(epoch, name, fields))

    def clear(self):
        self.sent.clear()
        self.held = 0

    def first(self):
        """The first frame: its epoch, its name and its fields."""
        found, _, fault = frames.read(self.sent[0])
        if fault:
            raise Finding(f"a node has sent no frame: {fault}")
        return found[0]

    def completes(self, count):
        """Whether this number of bytes completes the first frame."""
        return count >= len(self.sent[0]) - self.held

    def arrive(self, count):
        """This number of bytes arrives: the frame that they complete, if any."""
        if not self.completes(count):
            self.held += count
            return None
        frame = self.first()
        self.sent.popleft()
        self.held = 0
        return frame


class Link:
    """The channel: a wire to the destination, one back, and an urgent one to the destination."""

    def __init__(self):
        self.is_up = True
        self.forward, self.back, self.urgent = Wire(), Wire(), Wire()

    def require_up(self):
        if not self.is_up:
            raise Refused("Broken")

    def require_frame(self, wire):
        """Something is on a wire."""
        self.require_up()
        if not wire.sent:
            raise Refused("NothingThere")

    def clear(self):
        for wire in (self.forward, self.back, self.urgent):
            wire.clear()
