"""Worlds, whole scripts and transcripts, wrong lines, and the decoder of frames."""

from __future__ import annotations

import ctypes
from typing import Iterator, Optional

from .calls import (
    BOOL, NO_FRAME, NO_ROOM, NOT_A_LINE, REFUSED, SIZE, Counts, Frame, Handle, Refused, Room, ensure, library,
    refusal_name,
)

CPUS, QUEUES, OWED, WIRES, PAGES, ALL = range(6)
IDLE, PRECOPY, SWITCHING, POSTCOPY, COMPLETE = range(5)


class World(Handle):
    """A world in which a guest migrates."""

    def __init__(self, cpus: int = 2, transcript: bool = False, epoch: int = 0, rounds: int = 0):
        super().__init__()
        ensure(library.postmig_world_new_with_counts(cpus, transcript, epoch, rounds, self.handle))

    def line(self, text: bytes) -> bytes:
        """Does a line of a script, without its line feed, and returns what it prints."""
        room = self.room
        status = library.postmig_world_line(self.handle, text, len(text), room.bytes, room.size, room.count)
        if status == NO_ROOM:  # the line was done
            return self.answer()
        ensure(status)
        return ctypes.string_at(room.bytes, room.written.value)

    def answer(self) -> bytes:
        """What the last line printed, again."""
        return self.room.filled(lambda *room: library.postmig_world_answer(self.handle, *room))

    def counts(self) -> Counts:
        counts = Counts()
        ensure(library.postmig_world_counts(self.handle, ctypes.byref(counts)))
        return counts

    def copy(self, transcript: bool = False) -> World:
        """An equal world of its own, of which no line has printed anything."""
        copy = World.__new__(World)
        Handle.__init__(copy)
        ensure(library.postmig_world_copy(self.handle, transcript, copy.handle))
        return copy

    def is_same(self, other: World) -> bool:
        """Whether both worlds are the same, however they came about: the same lines then have the same outcomes."""
        if other is self:  # the call takes two handles
            return True
        is_same = BOOL()
        ensure(library.postmig_world_is_same(self.handle, other.handle, ctypes.byref(is_same)))
        return is_same.value

    def would(self, text: bytes) -> Optional[str]:
        """The name of the refusal that a line would print, without doing it; None if it would not be refused."""
        status = library.postmig_world_would(self.handle, text, len(text))
        if status > REFUSED:
            return refusal_name(status)
        ensure(status)
        return None

    def show(self, what: int = ALL, start: int = 0, end: int = 2**64 - 1) -> bytes:
        """What `postmig show` writes of the world as it is now; the pages are those of the addresses from start up to,
        and without, end."""
        return self.room.filled(lambda *room: library.postmig_world_show(self.handle, what, start, end, *room))


class Frames(Handle):
    """A decoder of the stream that one wire has."""

    def __init__(self) -> None:
        super().__init__()
        ensure(library.postmig_frames_new(self.handle))

    def feed(self, piece: bytes) -> Iterator[tuple[Frame, bytes]]:
        """Takes the next bytes of the stream, and yields each frame that is whole now, with its bytes. A fault of the
        stream is Refused."""
        ensure(library.postmig_frames_feed(self.handle, piece, len(piece)))
        while True:
            frame = Frame()
            try:
                text = self.room.filled(
                    lambda *room: library.postmig_frames_next(self.handle, ctypes.byref(frame), *room)
                )
            except Refused as refused:
                if refused.status == NO_FRAME:
                    return
                raise
            yield frame, text


def run(script: bytes, cpus: int = 2, transcript: bool = False) -> bytes:
    """What a whole script prints, on a new world."""
    return Room(len(script) * 8 + 4096).filled(
        lambda *room: library.postmig_run(cpus, transcript, script, len(script), *room)
    )


def check(transcript: bytes) -> tuple[bool, bytes]:
    """Whether a transcript is that of one flat memory, and the verdict."""
    is_flat = BOOL()
    verdict = Room().filled(
        lambda *room: library.postmig_check(transcript, len(transcript), ctypes.byref(is_flat), *room)
    )
    return is_flat.value, verdict


def explain(transcript: bytes, every: bool = False) -> tuple[bool, bytes]:
    """Whether a transcript is that of one flat memory, and what is wrong with its first wrong entry, or with every
    one."""
    is_flat = BOOL()
    said = Room().filled(
        lambda *room: library.postmig_explain(every, transcript, len(transcript), ctypes.byref(is_flat), *room)
    )
    return is_flat.value, said


def reason(line: bytes, transcript: bool = False) -> Optional[tuple[int, bytes]]:
    """Why a text is not a line of a script, or of a transcript, and the column of the reason; None if it is one."""
    column, room = SIZE(), Room()
    status = NO_ROOM
    while status == NO_ROOM:
        room.grow(max(room.size, room.written.value))
        status = library.postmig_line_reason(
            transcript, line, len(line), ctypes.byref(column), room.bytes, room.size, room.count
        )
    if status == NOT_A_LINE:
        return column.value, ctypes.string_at(room.bytes, room.written.value)
    ensure(status)
    return None


def lint(text: bytes, transcript: bool = False) -> bytes:
    """The listing of the wrong lines of a whole script, or of a transcript; nothing where none is wrong."""
    is_clean = BOOL()
    return Room().filled(lambda *room: library.postmig_lint(transcript, text, len(text), ctypes.byref(is_clean), *room))
