"""After the switch: memory that is lacking, answers of the kernel that no one expects. Before it: a place at the door
that is taken by the wrong one. Each case returns what is wrong, or None."""

import contextlib
import pathlib
import socket
import tempfile
import time

import hurt
import kept
import pair

FAULTY = pair.FOLDER / "out/faulty.so"
# Requests of ioctl(2), and errnos.
COPY, UNREGISTER = "c028aa03", "8010aa01"
CALL = "UFFDIO_UNREGISTER"
ENOMEM, EEXIST, EINVAL = 12, 17, 22
TRIED, PLACE = "it is tried until there is", ["--silence", "1", *kept.SMALL]


# A migration in post-copy. (A break, for which both sides need memory, comes once the push is fast.)
POSTCOPY = [*hurt.SLOW, "--cut", "main:post:1500000"]


def faults(file, call, error):
    """The words in front of those of a side whose calls fail while the file is there."""
    return ["env", f"LD_PRELOAD={FAULTY}", f"FAULTY_FILE={file}", f"FAULTY_CALL={call}", f"FAULTY_ERRNO={error}"]


class Faulty:
    """A migration of which one side's first slice has calls that fail from this phase on, while a file is there."""

    def __init__(self, program, side, call, error, folder, plan=POSTCOPY, phase="destination running", slices=()):
        self.file = pathlib.Path(folder, "faulty")
        around = {side: faults(self.file, call, error)}
        self.both = hurt.Watched(program, plan, memory=[*kept.SMALL, *kept.QUICK, *slices], around=around)
        self.side = getattr(self.both, side)
        self.both.at(phase)
        self.file.touch()


def lacking(program, side, call):
    """It waits, and refuses to end; once it has what it lacked the migration is done."""
    if kept.is_sanitized(program):
        return None
    with tempfile.TemporaryDirectory(prefix="live-") as folder:
        faulty = Faulty(program, side, call, ENOMEM, folder)
        faulty.both.source.order("push-rate 0")
        has_said = faulty.side.says(TRIED)
        faulty.side.ask_end()
        is_refused = faulty.side.says("the signal is refused")
        faulty.file.unlink()
        wrong = faulty.both.migration.finish()
    return wrong or (None if has_said and is_refused else f"it has said: {faulty.side.text}")


def kernel_memory_at_the_destination(program):
    return lacking(program, "dest", COPY)


def memory_at_the_destination(program):
    return lacking(program, "dest", "malloc")


def memory_at_the_source(program):
    return lacking(program, "source", "malloc")


def answers_that_nobody_expects(program):
    """Of the kernel: the destination keeps what it has, says so, and is ended by one word alone. The source stays."""
    for call, error, text in () if kept.is_sanitized(program) else (
        (COPY, EEXIST, "UFFDIO_COPY of page"), (COPY, EINVAL, "UFFDIO_COPY of page")
    ):
        with tempfile.TemporaryDirectory(prefix="live-") as folder:
            faulty = Faulty(program, "dest", call, error, folder)
            both = faulty.both
            is_held = both.dest.says(pair.HELD)
            both.dest.ask_end()
            answers = both.dest.order("end").get("ok"), both.dest.status("stopped_by"), both.source.status("switched")
            is_refused = both.dest.says("the signal is refused")
            both.dest.order("abandon")
            said = both.dest.end()
            is_there = both.source.is_running()
            both.source.order("abandon")
            both.source.end()
        wrong = hurt.expect([("destination", said, pair.REFUSED, text)])
        if (
            wrong
            or not (is_held and is_refused and is_there and answers[0] is False and text in answers[1] and answers[2])
        ):
            return wrong or f"{answers}, {said[1]}"
    return None


def a_source_that_is_held(program):
    """Its pages are nowhere else: after an answer that no one expects it keeps them, until it is abandoned."""
    if kept.is_sanitized(program):
        return None
    with tempfile.TemporaryDirectory(prefix="live-") as folder:
        plan = [*hurt.PRECOPY, "--target", "10000"]
        faulty = Faulty(program, "source", UNREGISTER, EINVAL, folder, plan, "source precopy")
        source, dest = faulty.both.source, faulty.both.dest
        source.order("rate 0")
        is_held = source.says(pair.HELD)
        source.ask_end()
        is_refused = source.says("the signal is refused: it has stopped, and keeps what it has: abandon ends it")
        answers = (
            source.order("end").get("ok"), source.status("switched"), source.status("kept"), source.status("stopped_by")
        )
        stays = is_held and is_refused and answers[:3] == (False, True, False) and CALL in answers[3]
        source.order("abandon")
        said = source.end()
        dest.order("abandon")
        dest.end()
    return hurt.expect([("source", said, pair.REFUSED, CALL)]) or (None if stays else f"{answers}, {said[1]}")


def held_without_a_socket(program):
    """It has no word but signals: the first one is refused, and says what the next one does."""
    if kept.is_sanitized(program):
        return None
    with tempfile.TemporaryDirectory(prefix="live-") as folder:
        file, plan = pathlib.Path(folder, "faulty"), [*kept.SMALL, *hurt.QUIET, "--progress"]
        dest = pair.Side([*faults(file, COPY, EINVAL), str(program), "dest", "--listen", "127.0.0.1:0", *plan])
        dest.listening.wait(pair.PATIENCE)
        address = f"127.0.0.1:{dest.number('listening', 'port')}"
        source = pair.Side(
            [str(program), "source", "--connect", address, *plan, *hurt.SLOW, "--control", f"unix:{folder}/control"]
        )
        runs = pair.wait_until(lambda: dest.figures.get("progress", {}).get("phase") == "running")
        file.touch()
        is_held = dest.says(pair.HELD)
        dest.ask_end()
        is_warned = dest.says("the signal is refused: it has stopped, and keeps what it has: another signal ends it")
        stays = runs and is_held and is_warned and dest.is_running()
        dest.ask_end()
        said = dest.end()
        source.order("abandon")
        source.end()
    return hurt.expect([("destination", said, pair.REFUSED, "UFFDIO_COPY of page")]) or (None if stays else said[1])


@contextlib.contextmanager
def listening(program):
    """A destination, a way to connect to it, and one to run the right source."""
    dest = pair.Side([str(program), "dest", "--listen", "127.0.0.1:0", *PLACE, "--check-owed"])
    dest.listening.wait(pair.PATIENCE)
    place = ("127.0.0.1", dest.number("listening", "port"))
    try:
        yield dest, place, lambda *words: pair.Side(
            [str(program), "source", "--connect", "{}:{}".format(*place), *PLACE, *pair.KEPT, *words]
        )
    finally:
        dest.process.kill()
        dest.end()


def first(place, flags, sign=b""):
    """A source that says its hello, and is let in."""
    connection = socket.create_connection(place, 5)
    connection.sendall(hurt.hello(memory=8, flags=flags) + sign)
    if len(connection.recv(hurt.HELLO_BYTES)) != hurt.HELLO_BYTES:
        raise OSError("no hello of the destination")
    return connection


def both_done(dest, source):
    said = source.end()
    dest.ask_end()
    return hurt.expect([("the right source", said, pair.DONE, ""), ("destination", dest.end(), pair.DONE, "")])


def a_source_that_never_begins(program):
    """It is let in, and says no more, or beats alone, or begins and is gone: the right one takes its place."""
    for text, does_beat, does_stay in ((b"", False, True), (b"", True, True), (hurt.ADVISE, False, False)):
        with listening(program) as (dest, place, source_of), first(place, 5, text) as connection:
            if not does_stay:
                connection.close()
            right = source_of()
            until = time.monotonic() + (3 if does_beat else 0)
            while time.monotonic() < until:
                with contextlib.suppress(OSError):
                    connection.sendall(b"\0")
                time.sleep(0.1)
            wrong = both_done(dest, right)
        if wrong:
            return f"{text}, {does_beat}: {wrong}"
    return None


def another_source_before_the_switch(program):
    """One that is killed in pre-copy leaves its place; the copies that came of it are gone."""
    with listening(program) as (dest, _, source_of):
        gone = source_of("--rounds", "1", "--rate", "1000", "--progress")
        has_sent = pair.wait_until(lambda: gone.number("progress", "sent") > 100)
        gone.process.kill()
        gone.end()
        # (the other one comes in its first epoch, in which nothing but a new node takes the copies away)
        time.sleep(1.5)
        return both_done(dest, source_of("--rounds", "0")) or (None if has_sent else "it has sent nothing")


# A Discard of nothing, and a Package of 8 MiB, of which one page is owed, with four processors that wait for nothing.
DISCARD = bytes.fromhex("02040000000000010000000400000000")
PACKAGE = bytes.fromhex("02050000000000010000001e00000001000000100000080002000000010000001000000001") + b"\4" + bytes(4)


def another_source_after_the_promise(program):
    """Once a source may have switched no one takes its place, and a signal does not end the destination: it has asked,
    it does not know how, it has sent its Discard, or it has switched without."""
    discard = hurt.ADVISE + DISCARD
    for flags, sign, reply in ((5, b"\1", b"\1"), (0, b"", b""), (0, discard, b""), (5, discard + PACKAGE, b"")):
        with listening(program) as (dest, place, source_of), first(place, flags, sign) as connection:
            if reply and connection.recv(1) != reply:
                return "the promise is not made"
            if PACKAGE in sign and not dest.says("running"):
                return "the guest does not run"
            connection.close()
            time.sleep(1.5)  # (for longer than it may be silent)
            wrong = hurt.expect(
                [("another source", source_of().end(), pair.LOST, "this destination serves another source")]
            )
            dest.ask_end()
            if wrong or not dest.says("the signal is refused: the"):
                return wrong or f"{flags}, {sign[:40]}: the signal is not refused: {dest.said}"
    return None


def no_switch_without_the_promise(program):
    """A source asks for it, and waits; a destination that gives it gets the Package."""
    with socket.create_server(("127.0.0.1", 0)) as server, tempfile.TemporaryDirectory(prefix="live-") as folder:
        source = pair.Side(
            [
                str(program), "source", "--connect", f"127.0.0.1:{server.getsockname()[1]}", *PLACE, "--rounds", "0",
                "--no-urgent", "--control", f"unix:{folder}/control",
            ]
        )
        with server.accept()[0] as destination:
            destination.sendall(hurt.hello(memory=8, flags=5))
            destination.settimeout(pair.PATIENCE)
            said = b""
            while b"\1" not in said[hurt.HELLO_BYTES + len(hurt.ADVISE):]:
                said += destination.recv(4096)
            early = source.status("switched")
            destination.sendall(b"\1")
            does_switch = pair.wait_until(lambda: source.status("switched"))
            source.order("abandon")
            source.end()
    return None if not early and does_switch else f"switched before the promise: {early}, after it: {does_switch}"


CASES = (
    kernel_memory_at_the_destination, memory_at_the_destination, memory_at_the_source, answers_that_nobody_expects,
    a_source_that_is_held, held_without_a_socket, a_source_that_never_begins, another_source_before_the_switch,
    another_source_after_the_promise, no_switch_without_the_promise,
)
