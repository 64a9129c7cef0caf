"""One node at a time: the decisions of a source or of a destination, without the bytes of pages (postmig_node.h has
what each call does)."""

from __future__ import annotations

import ctypes
from typing import Optional

from .calls import (
    NO_FRAME, NO_PAGE, SIZE, WORD, Command, DestinationState, Effect, Handle, Refused, Room, SourceState, ensure,
    library,
)

(
    DID_ANSWER, DID_SLEEP, DID_ENTER_CALL, DID_START, DID_ROUND, DID_SEND_PAGE, DID_SEND_ZERO, DID_SEND_RUN,
    DID_READ_FAULT, DID_READ_EVENT, DID_READ_LAST, DID_UNPROTECT, DID_ZERO, DID_WAKE, DID_FORGET, DID_REQUEST,
    DID_SWITCH, DID_MOVE, DID_TAKE_ADVISE, DID_TAKE_PAGE, DID_TAKE_ZERO, DID_TAKE_RUN, DID_TAKE_DISCARD,
    DID_TAKE_PACKAGE, DID_TAKE_END, DID_TAKE_RESUME, DID_TAKE_REQUEST, DID_TAKE_RECV, DID_TAKE_DONE, DID_INSTALL,
    DID_DROP, DID_DEQUEUE, DID_END, DID_BREAK, DID_NOTICE, DID_RESUME,
) = range(1, 37)
LOAD, STORE, MMAP, MUNMAP, MREMAP, DONTNEED = range(1, 7)
PROT_NONE, PROT_READ, PROT_READ_WRITE = range(3)
ANYWHERE, FIXED, NO_REPLACE = range(3)
SOURCE_IDLE, SOURCE_PRECOPY, SOURCE_STOPPED, SOURCE_PAUSED, SOURCE_RELEASED = range(5)
(
    DESTINATION_IDLE, DESTINATION_ADVISED, DESTINATION_DISCARDING, DESTINATION_RUNNING, DESTINATION_PAUSED,
    DESTINATION_ENDED,
) = range(6)


def command(kind: int, **fields: int) -> Command:
    """A command of a processor; the fields that its kind does not name are 0."""
    return Command(kind=kind, **fields)


class Node(Handle):
    """What both kinds of node have. A step returns its effect, and raises Refused where nothing was done."""

    kind: str

    def _call(self, name: str, *given) -> Effect:
        effect = Effect()
        ensure(getattr(library, f"postmig_{self.kind}_{name}")(self.handle, *given, ctypes.byref(effect)))
        return effect

    def issue(self, cpu: int, given: Command) -> Effect:
        """Has a processor make a command."""
        return self._call("issue", cpu, ctypes.byref(given))

    def retry(self, cpu: int) -> Effect:
        """Has a woken processor make its load or store again."""
        return self._call("retry", cpu)

    def read(self) -> Effect:
        """Reads the next message of the node's own userfault object."""
        return self._call("read")

    def next_act(self) -> Effect:
        """The effect that `act` would have."""
        return self._call("next_act")

    def act(self) -> Effect:
        """Resolves the first fault that was read."""
        return self._call("act")

    def notice(self) -> Effect:
        """Notices that the channel is broken."""
        return self._call("notice")

    def frames(self) -> bytes:
        """Takes the texts of all frames that wait to be sent; nothing if none waits."""
        try:
            return self.room.filled(lambda *room: library.postmig_node_frame(self.handle, *room))
        except Refused as refused:
            if refused.status == NO_FRAME:
                return b""
            raise

    def trace(self, on: bool = True) -> None:
        """Begins the trace of the node, or ends it and drops the lines that wait."""
        ensure(library.postmig_node_trace(self.handle, on))

    def traced(self) -> bytes:
        """Takes the lines that wait in the trace."""
        count, lines = SIZE(), []
        ensure(library.postmig_node_trace_count(self.handle, ctypes.byref(count)))
        for _ in range(count.value):
            lines.append(self.room.filled(lambda *room: library.postmig_node_trace_take(self.handle, *room)))
        return b"".join(lines)


class Source(Node):
    """A source in its world of zeros."""

    kind = "source"

    def __init__(self, cpus: int = 2, epoch: int = 0, rounds: int = 0):
        super().__init__()
        ensure(library.postmig_source_new(cpus, epoch, rounds, self.handle))

    def start(self) -> Effect:
        return self._call("start")

    def round(self) -> Effect:
        return self._call("round")

    def next_run(self, most: int = 64) -> tuple[int, int]:
        """The first page and the number of pages that `run_sent` would send."""
        first, count = WORD(), WORD()
        ensure(library.postmig_source_next_run(self.handle, most, ctypes.byref(first), ctypes.byref(count)))
        return first.value, count.value

    def run_sent(self, most: int = 64) -> Effect:
        return self._call("run_sent", most)

    def send(self) -> Effect:
        return self._call("send")

    def switch(self) -> Effect:
        return self._call("switch")

    def next_remaining(self, start: int = 0) -> Optional[int]:
        """The least page from `start` on that is owed and was not sent in this epoch."""
        page = WORD()
        status = library.postmig_source_next_remaining(self.handle, start, ctypes.byref(page))
        if status == NO_PAGE:
            return None
        ensure(status)
        return page.value

    def check_push(self, epoch: int, page: int) -> None:
        """Raises the refusal that `push` would have."""
        ensure(library.postmig_source_check_push(self.handle, epoch, page))

    def push(self, epoch: int, page: int, urgent: bool = False) -> Effect:
        """An owed page is sent, on the wire or on the urgent wire."""
        return self._call("push_urgent" if urgent else "push", epoch, page)

    def serve(self) -> Effect:
        return self._call("serve")

    def end(self) -> Effect:
        return self._call("end")

    def back(self, frame: bytes) -> Effect:
        """Takes a frame that came back."""
        return self._call("back", frame, len(frame))

    def resume(self) -> Effect:
        return self._call("resume")

    def counts(self) -> SourceState:
        state = SourceState()
        ensure(library.postmig_source_counts(self.handle, ctypes.byref(state)))
        return state


class Destination(Node):
    """A destination in its world of zeros."""

    kind = "destination"

    def __init__(self, cpus: int = 2):
        super().__init__()
        ensure(library.postmig_destination_new(cpus, self.handle))

    def take(self, frame: bytes, urgent: bool = False) -> Effect:
        """Takes a frame, without the bytes of its pages."""
        return self._call("take_urgent" if urgent else "take", frame, len(frame))

    def next_install(self) -> Effect:
        """The effect that `install` would have."""
        return self._call("next_install")

    def install(self) -> Effect:
        return self._call("install")

    def counts(self) -> DestinationState:
        state = DestinationState()
        ensure(library.postmig_destination_counts(self.handle, ctypes.byref(state)))
        return state

    def home(self, origin: int) -> Optional[int]:
        """Where a page of the source is owed now."""
        page = WORD()
        status = library.postmig_destination_home(self.handle, origin, ctypes.byref(page))
        if status == NO_PAGE:
            return None
        ensure(status)
        return page.value


def page_head(epoch: int, page: int) -> bytes:
    """The 16 bytes in front of the 4096 of a Page."""
    return Room(64).filled(lambda *room: library.postmig_page_head(epoch, page, *room))


def run_head(epoch: int, first: int, count: int) -> bytes:
    """The 20 bytes in front of those of a Run of 1 to 64 pages."""
    return Room(64).filled(lambda *room: library.postmig_run_head(epoch, first, count, *room))


def zero_frame(epoch: int, page: int) -> bytes:
    """A Zero, which has 16 bytes."""
    return Room(64).filled(lambda *room: library.postmig_zero_frame(epoch, page, *room))


def frame_lengths(front: bytes) -> Optional[tuple[int, int]]:
    """How many bytes the frame at the front has without those of its pages, and how many of pages; None of fewer than
    12 bytes."""
    head, pages = SIZE(), SIZE()
    status = library.postmig_frame_lengths(front, len(front), ctypes.byref(head), ctypes.byref(pages))
    if status == NO_FRAME:
        return None
    ensure(status)
    return head.value, pages.value
