"""The bytes of frames, as docs/FORMATS.md has them.

A frame is (epoch, name, fields), as docs/decode.py returns it. That example is the decoder of the form; `read` adds the
limits. A set of pages is a list of runs (first page, count), an area has its protection as a third number, and a
command is (), (address, width) or (address, width, value).
"""

import pathlib
import struct
import sys

sys.path.append(str(pathlib.Path(__file__).resolve().parents[2] / "docs"))

import decode  # noqa: E402

PAGE = 4096
# The pages that may be mapped, and how many of them by version.
LOW, HIGH = 0x10, 0x100000
MOST = {1: 16_384, 2: 262_144}
HEADER = 12
LONGEST_RUN = 64
TAGS = {name: tag for tag, name in decode.NAMES.items()}
# The lengths of bodies: of these names one, of those of lists a first one to which 8 are added for each run, up to
# another.
LENGTHS = {"advise": 0, "page": 4 + PAGE, "zero": 4, "end": 4, "resume": 0, "request": 4, "done": 0}


class Fault(Exception):
    """The bytes are no frame: the argument is the name of the fault."""


def pages_in(runs):
    return {page for first, count, *_ in runs for page in range(first, first + count)}


def runs_of(pages):
    """Page numbers as maximal runs."""
    runs = []
    for page in sorted(pages):
        if runs and sum(runs[-1]) == page:
            runs[-1] = (runs[-1][0], runs[-1][1] + 1)
        else:
            runs.append((page, 1))
    return runs


def count_of(runs):
    return sum(run[1] for run in runs)


# Reading


def is_length(version, name, length):
    most = MOST[version]
    if name in LENGTHS:
        return length == LENGTHS[name]
    if name == "package":
        return 10 <= length <= 297 + 17 * most
    if name == "run":
        return length > 8 and (length - 8) % PAGE == 0 and length <= 8 + LONGEST_RUN * PAGE
    first, last = (4, 4_194_244) if name == "discard" else (5, 5 + 8 * most)
    return first <= length <= last and (length - first) % 8 == 0


def are_in_order(runs, most=HIGH):
    """Whether runs or areas ascend, each with a page between it and one of the same protection before it, and have at
    most this many pages."""
    end, before = 0, None
    for first, count, *protection in runs:
        if count == 0 or first < max(LOW, end + (protection == before)) or first + count > HIGH or protection > [2]:
            return False
        end, before = first + count, protection
    return count_of(runs) <= most


def is_command(command):
    if not command:
        return True
    address, width, *value = command
    return width in (1, 2, 4, 8) and address % width == 0 and all(it < 256**width for it in value)


def are_in_limits(version, name, fields):
    most = MOST[version]
    if "page" in fields:
        return LOW <= fields["page"] and fields["page"] + fields.get("count", 1) <= HIGH
    if name == "package":
        commands = fields["commands"]
        is_right = 1 <= len(commands) <= 16 and all(map(is_command, commands))
        return is_right and are_in_order(fields["areas"], most) and are_in_order(fields["owed"], most)
    return are_in_order(fields.get("pages", ())) and are_in_order(fields.get("owed", ()), most)


def read_body(version, name, data):
    body = decode.Body(data)
    try:
        found = decode.fields(name, body)
    except ValueError:
        raise Fault("BadField") from None
    if body.at != len(data) or not are_in_limits(version, name, found):
        raise Fault("BadField")
    return found


def read(stream):
    """The frames of a stream; how many bytes they take; and how it ends: a fault, `truncated`, or nothing."""
    found, at, version = [], 0, None
    try:
        while len(stream) - at >= HEADER:
            code, tag, spare, epoch, length = struct.unpack_from(">BBHII", stream, at)
            name = decode.NAMES.get(tag)
            if code not in MOST or version not in (None, code) or name is None or (code, name) == (1, "run"):
                raise Fault("BadTag")
            if not is_length(code, name, length):
                raise Fault("BadLength")
            if spare:
                raise Fault("BadField")
            end = at + HEADER + length
            if end > len(stream):
                break
            found.append((epoch, name, read_body(code, name, stream[at + HEADER : end])))
            at, version = end, code
    except Fault as fault:
        return found, at, str(fault)
    return found, at, "truncated" if at < len(stream) else ""


# Writing


def header(epoch, tag, length, version=2):
    return struct.pack(">BBHII", version, tag, 0, epoch, length)


def runs_text(runs):
    return struct.pack(">I", len(runs)) + b"".join(struct.pack(">II" + "B" * (len(run) - 2), *run) for run in runs)


def command_text(command):
    return struct.pack(">B" + "QBQ"[: len(command)], max(len(command) - 1, 0), *command)


def body_of(name, fields):
    if name == "run":
        return struct.pack(">II", fields["page"], fields["count"]) + fields["bytes"]
    if "page" in fields:
        return struct.pack(">I", fields["page"]) + fields.get("bytes", b"")
    if name == "package":
        commands = fields["commands"]
        return runs_text(fields["areas"]) + runs_text(fields["owed"]) + bytes([len(commands)]) + b"".join(
            map(command_text, commands)
        )
    if name == "recv":
        return bytes([decode.STATES.index(fields["state"])]) + runs_text(fields["owed"])
    if name == "end":
        return struct.pack(">I", fields["urgent"])
    return runs_text(fields["pages"]) if name == "discard" else b""


def encode(epoch, name, fields, version=2):
    body = body_of(name, fields)
    return header(epoch, TAGS[name], len(body), version) + body


# What a frame says


def page_frame(page, data):
    """The name and the fields of a copy of a page. Without bytes it is of zeros."""
    return ("page", {"page": page, "bytes": data}) if data else ("zero", {"page": page})


def copies(name, fields):
    """The pages of a frame Page, Zero or Run, each with its bytes, or None where all are zeros."""
    if name == "zero":
        return [(fields["page"], None)]
    parts = (fields["bytes"][at : at + PAGE] for at in range(0, len(fields["bytes"]), PAGE))
    return [(page, data if any(data) else None) for page, data in enumerate(parts, fields["page"])]


def told(name, fields):
    """What the lines of a run say of a frame, after `sent` or `took`."""
    if "page" in fields:
        return f"{name} {PAGE * fields['page']:#x}" + (f" {fields['count']}" if name == "run" else "")
    if name == "discard":
        return f"discard {count_of(fields['pages'])}"
    if name == "package":
        return f"package owed {count_of(fields['owed'])}"
    return f"recv {fields['state']} {count_of(fields['owed'])}" if name == "recv" else name
