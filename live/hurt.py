"""Ways to hurt a migration: a side that is killed, strangers at the door, bytes that are not frames. Each case returns
what is wrong, or None."""

import concurrent.futures
import contextlib
import shlex
import signal
import socket
import struct
import subprocess
import sys
import tempfile
import threading
import time

import pair

# Pre-copy and post-copy that last until a case is done with them, however slow the machine is; and a guest that does
# not ask for all at once.
PRECOPY = ["--rounds", "1", "--rate", "100"]
SLOW = ["--push-rate", "50", "--rounds", "0"]
QUIET = ["--pause", "200000"]
MEMORY = ["--memory", "16M", "--cold", "16"]
GREETING = b"pmlive\x02"
ADVISE = bytes.fromhex("020100000000000100000000")
HELLO_BYTES = 192


def hello(channel=0, epoch=1, instance=7, memory=16, threads=4, name="", reason="", flags=0):
    """Of a side that does not beat, whose guest is unknown."""
    numbers = struct.pack(">BIQIIHHQIHH", channel, epoch, instance, flags, memory * 256, 1, threads, 0, 262144, 16, 0)
    return GREETING + numbers + name.encode().ljust(32, b"\0") + reason.encode().ljust(112, b"\0")


def expect(sides):
    """sides: for each side its status, its text, and the status and text that it should have."""
    wrong = [
        f"{name}: status {side[0]}, {side[1]!r}"
        for name, side, status, text in sides
        if side[0] != status or text not in side[1]
    ]
    return "; ".join(wrong) or None


class Watched:
    """Two sides with traces, and events for the first lines of progress with the phases that the cases wait for."""

    def __init__(self, program, source, dest=(), memory=(), **more):
        self.program, self.shared = (
            program, [*(memory or MEMORY), *(QUIET if "--push-rate" in source else ()), "--progress"]
        )
        self.phases = {name: threading.Event() for name in ("source precopy", "source stopped", "destination running")}
        self.migration = pair.Migration(
            self.shared, source, list(dest), program, on_progress=self.see, is_traced=True, **more
        )
        self.source, self.dest = self.migration.source, self.migration.dest
        self.address = f"127.0.0.1:{self.dest.number('listening', 'port')}"

    def see(self, side, found):
        event = self.phases.get(f"{side} {found['phase']}")
        if event:
            event.set()

    def at(self, phase):
        if not self.phases[phase].wait(pair.PATIENCE):
            raise TimeoutError(f"the phase {phase} does not come")

    def another_dest(self):
        self.migration.traces[1] += "-of-another"
        dest = pair.Side(
            [str(self.program), "dest", "--listen", self.address, *self.shared, "--trace", self.migration.traces[1]]
        )
        dest.listening.wait(pair.PATIENCE)
        return dest

    def finish(self):
        """What is wrong with the migration, whose background goes as fast as it can from now on."""
        answer = self.source.order("push-rate 0")
        return self.migration.finish() or (None if answer.get("ok") else f"push-rate: {answer}")

    def judged(self):
        """What is wrong with the steps of the source and of the last destination."""
        self.migration.judge()
        return self.migration.judged


def destination_dies_before_the_switch(program):
    both = Watched(program, [*PRECOPY, "--patience", "1"])
    both.at("source precopy")
    both.dest.process.send_signal(signal.SIGKILL)
    both.dest.end()
    return expect([("source", both.source.end(), pair.LOST, "the guest has run on here, and its memory is right")])


def another_destination_before_the_switch(program):
    both = Watched(program, [*PRECOPY, "--patience", "60"])
    both.at("source precopy")
    both.dest.process.send_signal(signal.SIGKILL)
    both.dest.end()
    dest = both.another_dest()
    both.source.order("rate 0")
    source = both.source.end()
    dest.ask_end()
    return expect([("source", source, pair.DONE, ""), ("destination", dest.end(), pair.DONE, "")]) or both.judged()


def destination_dies_after_the_switch(program):
    both = Watched(program, [*SLOW, "--patience", "1"])
    both.at("destination running")
    both.dest.process.send_signal(signal.SIGKILL)
    both.dest.end()
    return expect([("source", both.source.end(), pair.LOST, "whether it runs there is not known here")])


def another_destination_after_the_switch(program):
    both = Watched(program, SLOW)
    both.at("destination running")
    both.dest.process.send_signal(signal.SIGKILL)
    both.dest.end()
    dest = both.another_dest()
    both.source.says("another destination listens there than at the switch")
    both.source.order("abandon")
    source = both.source.end()
    dest.ask_end()
    return expect([("source", source, pair.LOST, "another destination listens there than at the switch"),
                   ("destination", dest.end(), pair.LOST, "it ends before the switch")])


def source_dies_before_the_switch(program):
    both = Watched(program, PRECOPY)
    both.at("source precopy")
    both.source.process.send_signal(signal.SIGKILL)
    both.source.end()
    both.dest.ask_end()
    return expect([("destination", both.dest.end(), pair.LOST, "it ends before the switch")])


def source_dies_after_the_switch(program):
    both = Watched(program, SLOW)
    both.at("destination running")
    both.source.process.send_signal(signal.SIGKILL)
    both.source.end()
    both.dest.ask_end()
    if both.dest.order("end").get("ok") or both.dest.order("status").get("phase") not in ("running", "paused"):
        return "a guest that lacks pages is ended"
    both.dest.order("abandon")
    ended = both.dest.end()
    return expect(
        [
            ("destination", ended, pair.LOST, "the guest is lost"),
            ("destination", ended, pair.LOST, "the signal is refused"),
        ]
    )


def frozen_destination(program):
    both = Watched(program, [*PRECOPY, "--patience", "1", "--silence", "1"])
    both.at("source precopy")
    both.dest.process.send_signal(signal.SIGSTOP)
    source = both.source.end()
    both.dest.process.kill()
    both.dest.end()
    return expect([("source", source, pair.LOST, "the guest has run on here, and its memory is right")])


def strangers(
    program,
    words=(),
    texts=(b"", b"GET / HTTP/1.1\r\n\r\n", hello()[:9], hello(0, 9), hello(1, 0), hello(1, 5), hello(0, 0)),
):
    """Those that say nothing, half a hello, something else, or an epoch that is over: none of them disturbs the
    migration."""
    both = Watched(program, SLOW, memory=[*MEMORY, *words])
    both.at("destination running")
    host, port = both.address.split(":")
    with contextlib.ExitStack() as stack:
        for text in texts * 6:
            stranger = stack.enter_context(socket.create_connection((host, int(port)), 5))
            stranger.sendall(text)
        are_gone = pair.wait_until(lambda: both.dest.status("turned_away") >= 20)
        wrong = both.finish()
    return (
        wrong
        or (
            None
            if are_gone and both.source.number("source", "breaks") == 0
            else "too few were turned away, or the source was"
        )
    )


def is_open(connection, seconds):
    """Whether the other side leaves a connection open for this time, on which it says nothing."""
    connection.settimeout(seconds)
    try:
        return bool(connection.recv(1))
    except TimeoutError:
        return True
    except ConnectionResetError:
        return False


def old_epoch(program):
    """A connection of the same source, but of an epoch that is over, does not take the place of the one of today; one
    of the next does."""
    dest = pair.Side([str(program), "dest", "--listen", "127.0.0.1:0", *MEMORY])
    dest.listening.wait(pair.PATIENCE)
    with contextlib.ExitStack() as stack:
        def connect(epoch):
            connection = stack.enter_context(
                socket.create_connection(("127.0.0.1", dest.number("listening", "port")), 5)
            )
            connection.sendall(hello(0, epoch) + ADVISE[:4] + epoch.to_bytes(4, "big") + bytes(4))
            return connection

        today = connect(5)
        wrong = None if len(today.recv(HELLO_BYTES)) == HELLO_BYTES else "no hello of the destination"
        old = connect(3)
        wrong = wrong or ("an old epoch is let in" if is_open(old, pair.PATIENCE) else None)
        wrong = wrong or (None if is_open(today, 0.3) else "it takes the place of today's")
        connect(6)
        wrong = wrong or ("two connections serve one source" if is_open(today, pair.PATIENCE) else None)
    dest.process.kill()
    dest.end()
    return wrong


def hostile_source(program):
    """Bytes that are not frames, after a right hello."""
    for text, fault in (
        (b"\x02\x77" + bytes(10), "stream fault BadTag"),
        (ADVISE[:8] + b"\0\0\0\1\0", "stream fault BadLength"),
        (ADVISE + bytes.fromhex("0203000000000001000000040000000f"), "stream fault BadField"),
        (bytes.fromhex("020600000000000100000004") + bytes(4), "refused OutOfPlace"),
    ):
        dest = pair.Side([str(program), "dest", "--listen", "127.0.0.1:0", *MEMORY])
        dest.listening.wait(pair.PATIENCE)
        with socket.create_connection(("127.0.0.1", dest.number("listening", "port")), 5) as source:
            source.sendall(hello(flags=5) + text)
            while source.recv(4096):
                pass
            dest.ask_end()
            wrong = expect([("destination", dest.end(), pair.LOST, fault)])
        if wrong:
            return wrong
    return None


def served(program, answer, patience="1"):
    """What becomes of a source whose destination sends these bytes, and no more."""
    with socket.create_server(("127.0.0.1", 0)) as server:
        address = f"127.0.0.1:{server.getsockname()[1]}"
        source = pair.Side(
            [
                str(program), "source", "--connect", address, *MEMORY, *PRECOPY, *pair.KEPT, "--patience", patience,
                "--no-urgent",
            ]
        )
        with server.accept()[0] as connection:
            connection.sendall(answer)
            return source.end()


def hostile_destination(program):
    """The guest runs on at the source."""
    for answer, text in (
        (b"HTTP/1.1 200 OK\r\n\r\nnot here", "who listens there is no destination"),
        (b"", "no destination"),
        (hello() + b"\x02\x83\0\0\0\0\0\1\0\0\0\0", "refused OutOfPlace"),
        (hello() + b"\x03\x83\0\0\0\0\0\1\0\0\0\0", "stream fault BadTag"),
    ):
        status, said = served(program, answer)
        wrong = expect(
            [("source", (status, said), pair.LOST, text), ("source", (status, said), pair.LOST, "its memory is right")]
        )
        if wrong:
            return wrong
    return None


def handed(program, words):
    """A handler, and what it has printed once a monitor is to come; the monitor is the caller's."""
    folder = tempfile.TemporaryDirectory(prefix="live-")
    place = f"{folder.name}/monitor"
    return (
        folder,
        place,
        pair.Side([str(program), "handler", "--listen", "127.0.0.1:0", "--monitor", f"unix:{place}", *words]),
    )


def connect(place):
    for _ in range(100 * pair.PATIENCE):
        connection = socket.socket(socket.AF_UNIX)
        try:
            connection.connect(place)
            return connection
        except OSError:
            connection.close()
            time.sleep(0.01)
    raise TimeoutError("no handler")


def hostile_monitor(program):
    """Lists that cannot be read or do not fit, and no descriptor."""
    one = '{"base_host_virt_addr":%d,"size":%d,"offset":%d,"page_size":%d}'
    whole = one % (1 << 30, 1 << 20, 0, 4096)
    half, other_half = one % (1 << 30, 1 << 19, 0, 4096), one % ((1 << 30) + (1 << 18), 1 << 19, 1 << 19, 4096)
    texts = (
        ("[%s]" % whole, False, "no userfaultfd"),
        ("[%s" % whole, True, "cannot be read"),
        ("[%s]x" % whole, True, "cannot be read"),
        ("[]", True, "cannot be read"),
        ("[%s]" % ",".join([whole] * 17), True, "cannot be read"),
        ("[%s]" % whole.replace('"offset"', '"size"'), True, "cannot be read"),
        ("[%s]" % half, True, "is not 256 pages"),
        ("[%s,%s]" % (half, other_half), True, "is not 256 pages"),
        ("[%s]" % (one % (2**64 - 4096, 1 << 20, 0, 4096)), True, "is not 256 pages"),
        ("[%s]" % (one % (1 << 30, 1 << 20, 0, 2 << 20)), True, "pages have 2097152 bytes"),
    )
    for text, has_file, said in texts:
        folder, place, handler = handed(program, ["--memory", "1M"])
        with folder, connect(place) as monitor, open("/dev/null") as file:
            socket.send_fds(monitor, [text.encode()], [file.fileno()] if has_file else [])
            wrong = expect([(f"handler of {text}", handler.end(), pair.REFUSED, said)])
        if wrong:
            return wrong
    return None


def handed_after_the_switch(program):
    migration = pair.Migration([*MEMORY, *QUIET, "--progress"], SLOW, [], program, is_handed=True)
    if not pair.wait_until(lambda: migration.dest.figures.get("progress", {}).get("phase") == "running"):
        raise TimeoutError("the handler does not run the guest")
    return migration


def monitor_dies_after_the_switch(program):
    three = handed_after_the_switch(program)
    three.monitor.process.send_signal(signal.SIGKILL)
    three.monitor.end()
    wrong = expect([("handler", three.dest.end(), pair.LOST, "ended")])
    three.source.process.kill()
    three.source.end()
    return wrong


def monitor_that_never_stops(program):
    """It has all pages. The handler says for whom it waits, and another word ends it; the monitor loses nothing."""
    for word in ("end", "abandon", ""):
        three = pair.Migration([*MEMORY, *QUIET, "--progress"], ["--rounds", "0"], [], program, is_handed=True)
        source = three.source.end()
        three.monitor.process.send_signal(signal.SIGSTOP)
        three.dest.ask_end()
        waits = three.dest.says("waiting until the monitor says that its threads have stopped")
        is_there = waits and three.dest.status("phase") == "ended" and three.dest.is_running()
        three.dest.order(word) if word else three.dest.ask_end()
        handler = three.dest.end()
        three.monitor.process.send_signal(signal.SIGCONT)
        wrong = expect(
            [
                ("source", source, pair.DONE, ""),
                ("handler", handler, pair.DONE, "the operator ends the wait"),
                ("monitor", three.monitor.end(), pair.DONE, ""),
            ]
        )
        if wrong or not is_there:
            return wrong or f"it does not wait: {handler}"
    return None


def handler_dies_after_the_switch(program):
    three = handed_after_the_switch(program)
    three.dest.process.send_signal(signal.SIGKILL)
    three.dest.end()
    wrong = expect([("monitor", three.monitor.end(), pair.LOST, "the handler has ended: the guest is lost")])
    three.source.process.kill()
    three.source.end()
    return wrong


def pages_given_back_under_each_other(program):
    """Threads wait for pages of which others have no more use: each load returns, and no processor is woken and
    left."""
    for is_handed in (False, True):
        for seed in range(1, 5):
            migration = pair.Migration(
                [
                    "--memory", "2M", "--threads", "8", "--shared", "4", "--cold", "1", "--pause", "20", "--seed",
                    str(seed), "--progress",
                ],
                ["--rounds", "0", "--push-rate", "2000"],
                ["--check-owed"],
                program,
                is_handed=is_handed,
                is_traced=True,
                delay=0.02,
            )
            wrong = migration.finish()
            if wrong or migration.dest.number("destination", "roused"):
                break
        if wrong:
            return wrong
        if not migration.dest.number("destination", "roused"):
            return "no thread has waited for a page that was given back"
    return None


FED = ["--memory", "1M", "--threads", "3", "--given", "2"]


def fed(program, role, command, words=()):
    """The status of a side whose other side is a command, and all that it says."""
    done = subprocess.run(
        [program, role, *FED, "--after", "100", *words, "--feed", command],
        stdin=subprocess.DEVNULL,
        capture_output=True,
        text=True,
        timeout=pair.PATIENCE,
    )
    return done.returncode, done.stdout + done.stderr


def example(*words):
    return shlex.join([sys.executable, str(pair.FOLDER / "example_source.py"), *FED, *words])


def source_of_somebody_else(program):
    """The example; one of another guest, or that does not fit; and one that is cut off before the switch and after
    it."""
    cut = f"{example()} 2>/dev/null | stdbuf -o0 head -c"
    return expect(
        [
            ("dest", fed(program, "dest", example(), ["--check-owed"]), pair.DONE, "wrong_loads=0 wrong_pages=0"),
            (
                "dest of another guest",
                fed(program, "dest", example("--seed", "2")),
                pair.REFUSED,
                "this guest was started with other",
            ),
            (
                "dest and one more thread",
                fed(program, "dest", example("--threads", "4")),
                pair.LOST,
                "the destination refuses: --threads: source 4, destination 3",
            ),
            ("dest before the switch", fed(program, "dest", f"{cut} 300000"), pair.LOST, "it ends before the switch"),
            ("dest after the switch", fed(program, "dest", f"{cut} 700000"), pair.LOST, "the guest is lost"),
        ]
    )


def source_of_somebody_else_for_a_monitor(program):
    with tempfile.TemporaryDirectory(prefix="live-") as folder:
        place = f"unix:{folder}/monitor"
        handler = pair.Side([str(program), "handler", *FED, "--monitor", place, "--feed", example()])
        monitor = pair.Side([str(program), "monitor", *FED, "--connect", place])
        return expect([("monitor", monitor.end(), pair.DONE, ""), ("handler", handler.end(), pair.DONE, "")])


def no_other_side(program):
    return expect([("dest", fed(program, "dest", "exit 3"), pair.LOST, "fed status=3"),
                   ("dest", fed(program, "dest", "echo this is no hello"), pair.LOST, "has said no hello that fits"),
                   ("source", fed(program, "source", "exit 3"), pair.LOST, "its memory is right"),
                   ("source", fed(program, "source", "exec cat"), pair.LOST, "refused OutOfPlace")])


def both_are_fed(program):
    """Each has a relay to the other as its other side."""
    with tempfile.TemporaryDirectory(prefix="live-") as folder:
        relay = [
            shlex.join([sys.executable, str(pair.FOLDER / "relay.py"), how, f"{folder}/socket"])
            for how in ("listen", "connect")
        ]
        with concurrent.futures.ThreadPoolExecutor(2) as threads:
            dest = threads.submit(fed, program, "dest", relay[0], ["--check-owed"])
            source = threads.submit(fed, program, "source", relay[1], ["--rounds", "2", "--target", "0", *pair.KEPT])
    return expect(
        [("source", source.result(), pair.DONE, ""), ("dest", dest.result(), pair.DONE, "wrong_loads=0 wrong_pages=0")]
    )


CASES = (
    destination_dies_before_the_switch, another_destination_before_the_switch, destination_dies_after_the_switch,
    another_destination_after_the_switch, source_dies_before_the_switch, source_dies_after_the_switch,
    frozen_destination, strangers, old_epoch, hostile_source, hostile_destination, hostile_monitor,
    monitor_dies_after_the_switch, monitor_that_never_stops, handler_dies_after_the_switch,
    pages_given_back_under_each_other, source_of_somebody_else, source_of_somebody_else_for_a_monitor, no_other_side,
    both_are_fed,
)


def found_by(case, program):
    """What is wrong by this case, or None. A side that is not there when it should be is wrong too."""
    try:
        return case(program)
    except (OSError, ValueError, subprocess.SubprocessError) as error:
        return f"{type(error).__name__}: {error}"
    finally:
        pair.end_started()


def all_cases(program, cases=CASES):
    """The number of wrong ones, each with a line."""
    wrong = 0
    for case in cases:
        found = found_by(case, program)
        if found:
            print(f"WRONG {case.__name__.replace('_', ' ')}: {found}", flush=True)
            wrong += 1
    return wrong
