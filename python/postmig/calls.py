"""The calls of libpostmig, as they are in postmig.h and postmig_node.h, with what all of them share: handles, room and
refusals."""

from __future__ import annotations

import ctypes
import ctypes.util
import os
import pathlib
from typing import Callable, Optional

OK, NO_ROOM, NOT_OPEN, NOT_A_LINE, NO_MEMORY, NO_CPU, NO_FRAME, FRAMES_WAIT, BAD_TAG, BAD_LENGTH, BAD_FIELD = range(11)
NOT_A_FRAME, NOT_A_COMMAND, NO_PAGE, NO_TRACE, NO_QUESTION, REFUSED = 11, 12, 13, 14, 15, 64
WORDS = {
    NO_ROOM: "there is no room for the answer", NOT_OPEN: "the handle is not open",
    NOT_A_LINE: "the text is not a line", NO_MEMORY: "no memory", NO_CPU: "there are 1 to 16 processors",
    NO_FRAME: "no frame waits", FRAMES_WAIT: "frames wait", BAD_TAG: "BadTag", BAD_LENGTH: "BadLength",
    BAD_FIELD: "BadField", NOT_A_FRAME: "the bytes are not those of one frame",
    NOT_A_COMMAND: "the numbers are not those of a command", NO_PAGE: "there is no such page",
    NO_TRACE: "the node has no trace", NO_QUESTION: "no question has this number",
}
POINTER, SIZE, LONG = ctypes.c_void_p, ctypes.c_size_t, ctypes.c_uint64
BYTE, WORD, BOOL, TEXT = ctypes.c_uint8, ctypes.c_uint32, ctypes.c_bool, ctypes.c_char_p


class Counts(ctypes.Structure):
    """How far the migration of a world is."""

    phase: int
    epoch: int
    rounds: int
    left: int
    sent: int
    installed: int
    dropped: int
    faults: int
    _fields_ = [(it, WORD) for it in ("phase", "epoch", "rounds", "left")] + [
        (it, LONG) for it in ("sent", "installed", "dropped", "faults")
    ]


class Frame(ctypes.Structure):
    """A frame without the bytes and lists that it carries."""

    tag: int
    epoch: int
    addr: int
    count: int
    _fields_ = [("tag", WORD), ("epoch", WORD), ("addr", LONG), ("count", LONG)]


class Effect(ctypes.Structure):
    """What a step of a node did; `kind` is DID_.., which says which fields are set."""

    kind: int
    cpu: int
    number: int
    count: int
    addr: int
    other: int
    length: int
    value: int
    reply: int
    _fields_ = [(it, WORD) for it in ("kind", "cpu", "number", "count")] + [
        (it, LONG) for it in ("addr", "other", "length", "value")
    ] + [("reply", WORD)]


class Command(ctypes.Structure):
    """A command of a processor, as struct postmig_command."""

    _fields_ = [(it, WORD) for it in ("kind", "width", "prot", "place", "may_move")] + [
        (it, LONG) for it in ("addr", "length", "new_length", "target", "value")
    ]


class SourceState(ctypes.Structure):
    """How far a source is."""

    _fields_ = [(it, WORD) for it in ("phase", "switched", "epoch", "rounds", "remaining", "waiting")] + [
        (it, LONG) for it in ("asked", "held", "changing", "pages_sent", "faults")
    ]


class DestinationState(ctypes.Structure):
    """How far a destination is."""

    _fields_ = [(it, WORD) for it in ("phase", "has_run", "epoch", "owed", "waiting")] + [
        (it, LONG) for it in ("requests", "arrivals", "changing", "installed", "dropped", "faults")
    ]


# What each call takes.
WRITES = [POINTER, SIZE, POINTER]
READS = [TEXT, SIZE]
CALLS = {
    "world_new_with_counts": [BYTE, BOOL, WORD, WORD, POINTER],
    "world_line": [POINTER, *READS, *WRITES],
    "world_answer": [POINTER, *WRITES],
    "world_counts": [POINTER, POINTER],
    "world_copy": [POINTER, BOOL, POINTER],
    "world_is_same": [POINTER, POINTER, POINTER],
    "world_would": [POINTER, *READS],
    "world_show": [POINTER, WORD, LONG, LONG, *WRITES],
    "refusal_name": [WORD, *WRITES],
    "run": [BYTE, BOOL, *READS, *WRITES],
    "explain": [BOOL, *READS, POINTER, *WRITES],
    "check": [*READS, POINTER, *WRITES],
    "line_reason": [BOOL, *READS, POINTER, *WRITES],
    "lint": [BOOL, *READS, POINTER, *WRITES],
    "frames_new": [POINTER],
    "frames_feed": [POINTER, *READS],
    "frames_next": [POINTER, POINTER, *WRITES],
    "free": [POINTER],
    "node_frame": [POINTER, *WRITES],
    "node_trace": [POINTER, BOOL],
    "node_trace_count": [POINTER, POINTER],
    "node_trace_take": [POINTER, *WRITES],
    "source_new": [BYTE, WORD, WORD, POINTER],
    "source_next_run": [POINTER, BYTE, POINTER, POINTER],
    "source_run_sent": [POINTER, BYTE, POINTER],
    "source_next_remaining": [POINTER, WORD, POINTER],
    "source_check_push": [POINTER, WORD, WORD],
    "source_push": [POINTER, WORD, WORD, POINTER],
    "source_push_urgent": [POINTER, WORD, WORD, POINTER],
    "source_back": [POINTER, *READS, POINTER],
    "source_counts": [POINTER, POINTER],
    "destination_new": [BYTE, POINTER],
    "destination_take": [POINTER, *READS, POINTER],
    "destination_take_urgent": [POINTER, *READS, POINTER],
    "destination_install_run": [POINTER, WORD, POINTER, POINTER],
    "destination_counts": [POINTER, POINTER],
    "destination_home": [POINTER, WORD, POINTER],
    "page_head": [WORD, WORD, *WRITES],
    "run_head": [WORD, WORD, WORD, *WRITES],
    "zero_frame": [WORD, WORD, *WRITES],
    "frame_lengths": [*READS, POINTER, POINTER],
}
for _node in ("source", "destination"):
    CALLS[f"{_node}_issue"] = [POINTER, BYTE, POINTER, POINTER]
    CALLS[f"{_node}_retry"] = [POINTER, BYTE, POINTER]
    for _step in ("read", "next_act", "act", "notice"):
        CALLS[f"{_node}_{_step}"] = [POINTER, POINTER]
for _step in ("start", "round", "send", "switch", "serve", "end", "resume"):
    CALLS[f"source_{_step}"] = [POINTER, POINTER]
for _step in ("next_install", "install"):
    CALLS[f"destination_{_step}"] = [POINTER, POINTER]


def _places() -> list[str]:
    """Where the library may be: the file that POSTMIG_LIBRARY names; that of this checkout; or an installed one."""
    named = os.environ.get("POSTMIG_LIBRARY")
    if named:
        return [named]
    built = pathlib.Path(__file__).resolve().parents[2] / "dist" / "libpostmig.so"
    prefixes = [pathlib.Path.home() / ".local", pathlib.Path("/usr/local")]
    installed = [
        str(prefix / "lib" / "libpostmig.so") for prefix in prefixes if (prefix / "lib" / "libpostmig.so").exists()
    ]
    return [str(built)] * built.exists() + ["libpostmig.so.0"] + installed


def _loaded() -> ctypes.CDLL:
    for place in _places():
        try:
            found = ctypes.CDLL(place)
        except OSError:
            continue
        for name, takes in CALLS.items():
            call = getattr(found, f"postmig_{name}")
            call.argtypes, call.restype = takes, None if name == "free" else WORD
        return found
    raise OSError(
        "there is no libpostmig: ./postmig library makes it, ./postmig install PREFIX installs it, POSTMIG_LIBRARY "
        "names another"
    )


library = _loaded()


class Refused(Exception):
    """A call returned another status than OK. `number` is that of the wrong line, where a whole text has one."""

    def __init__(self, status: int, number: Optional[int] = None):
        name = WORDS.get(status) or refusal_name(status) or f"status {status}"
        super().__init__(name + ("" if number is None else f", line {number}"))
        self.status, self.number = status, number


def ensure(status: int, number: Optional[int] = None) -> None:
    if status != OK:
        raise Refused(status, number if status == NOT_A_LINE else None)


class Room:
    """Memory that a call writes to. It grows where an answer needs more."""

    def __init__(self, size: int = 4096):
        self.written = SIZE()
        self.count = ctypes.byref(self.written)
        self.grow(size)

    def grow(self, size: int) -> None:
        self.size, self.bytes = size, ctypes.create_string_buffer(size)

    def filled(self, call: Callable[..., int]) -> bytes:
        """What the call writes; it is made again with the room that it asks for."""
        status = call(self.bytes, self.size, self.count)
        if status == NO_ROOM:
            self.grow(self.written.value)
            status = call(self.bytes, self.size, self.count)
        ensure(status, self.written.value)
        return ctypes.string_at(self.bytes, self.written.value)


def refusal_name(status: int) -> Optional[str]:
    """The name of a refusal, as a script's output has it; None of another status."""
    room = Room(64)
    if status <= REFUSED or library.postmig_refusal_name(status, room.bytes, room.size, room.count) != OK:
        return None
    return ctypes.string_at(room.bytes, room.written.value).decode()


class Handle:
    """A handle and its memory. It stays on its thread. Leaving a `with` frees it, and so does `close`."""

    def __init__(self) -> None:
        self.at, self.room = POINTER(), Room()
        self.handle = ctypes.byref(self.at)

    def close(self) -> None:
        library.postmig_free(self.handle)

    def __enter__(self):
        return self

    def __exit__(self, *_) -> None:
        self.close()

    def __del__(self) -> None:
        self.close()
