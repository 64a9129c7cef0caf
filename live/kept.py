"""A guest is not thrown away: sides that stop for a while, connections that carry nothing and stay open, plans and
limits that do not fit, a reader who reads no more, the operator's words. Each case returns what is wrong, or None."""

import contextlib
import os
import pathlib
import re
import resource
import signal
import socket
import subprocess
import sys
import tempfile
import threading
import time

import hurt
import pair

SMALL = ["--memory", "8M", "--threads", "4", "--cold", "16", "--shared", "1"]
QUICK = ["--silence", "1"]
FAST = ["--rounds", "0"]
SLOW = [*FAST, "--push-rate", "800"]


def stopped(program, side, seconds):
    """One side does not run for some seconds after the switch, and until the other one takes the connection for
    broken."""
    both = hurt.Watched(program, hurt.SLOW, memory=[*SMALL, *QUICK])
    both.at("destination running")
    stopped_one, other = (both.dest, both.source) if side == "dest" else (both.source, both.dest)
    stopped_one.process.send_signal(signal.SIGSTOP)
    time.sleep(seconds)
    is_noticed = pair.wait_until(lambda: other.status("breaks"))
    stopped_one.process.send_signal(signal.SIGCONT)
    return both.finish() or (None if is_noticed else "no one notices it")


def a_stopped_destination(program):
    return stopped(program, "dest", 6)


def a_stopped_source(program):
    return stopped(program, "source", 4)


def swallowed(program, cuts, plan):
    migration = pair.Migration(
        [*SMALL, *QUICK, "--progress"], plan, ["--check-owed"], program, cuts=cuts, is_traced=True
    )
    is_so = pair.wait_until(lambda: migration.relay.swallowed, migration.source.is_running)
    with contextlib.suppress(OSError, ValueError):  # (it may have ended)
        migration.source.order("push-rate 0")
    return migration.finish() or (None if is_so else f"nothing was swallowed: {cuts}")


def half_open_connections(program):
    """Of the main and of the urgent one, in either direction, also within the hello. Requests, and the pages that they
    bring, need a slow push."""
    slow = hurt.SLOW
    for plan, cuts in (
        (FAST, [("out", 1000000, "swallow")]),
        (slow, [("in", 200, "swallow")]),
        (slow, [None, ("out", 3000, "swallow")]),
        (FAST, [("out", 100, "swallow")]),
        (FAST, [("out", 100000, "swallow"), None, ("in", 200, "swallow")]),
    ):
        wrong = swallowed(program, cuts, plan)
        if wrong:
            return wrong
    return None


def refused(program, source, dest, text):
    """A source that does not fit keeps its guest and says why, and so does the destination, which then takes the right
    one."""
    listening = pair.Side([str(program), "dest", "--listen", "127.0.0.1:0", *dest])
    listening.listening.wait(pair.PATIENCE)
    address = f"127.0.0.1:{listening.number('listening', 'port')}"
    wrong_one = pair.Side([str(program), "source", "--connect", address, *pair.KEPT, *source]).end()
    right_one = pair.Side([str(program), "source", "--connect", address, *pair.KEPT, *dest]).end()
    listening.ask_end()
    ended = listening.end()
    return hurt.expect([("source", wrong_one, pair.LOST, text), ("source", wrong_one, pair.LOST, "its memory is right"),
                        ("the right source", right_one, pair.DONE, ""), ("destination", ended, pair.DONE, text)])


def plans_that_differ(program):
    plan = ["--memory", "4M", "--threads", "2"]
    for source, text in (
        (["--memory", "2M"], "pages of --memory: source 512, destination 1024"),
        (["--memory", "8M"], "pages of --memory"),
        (["--threads", "4"], "--threads: source 4, destination 2"),
        (["--seed", "2"], "another guest"),
        (["--given", "1"], "another guest"),
        (["--migration", "other"], "--migration: source `other`, destination `this`"),
    ):
        dest = [*plan, "--migration", "this"]
        wrong = refused(program, [*dest, *source], dest, text)
        if wrong:
            return wrong
    return None


def is_sanitized(program):
    """A sanitizer takes terabytes of address space itself, and has its own allocator."""
    program = pathlib.Path(program).read_bytes()
    return b"__asan_init" in program or b"__tsan_init" in program


def limited(bytes_of_space):
    return lambda: resource.setrlimit(resource.RLIMIT_AS, (bytes_of_space, bytes_of_space))


def ended(process, seconds=pair.PATIENCE):
    """Its status and its text."""
    try:
        said = process.communicate(timeout=seconds)
        return process.returncode, said[0] + said[1]
    except subprocess.TimeoutExpired:
        process.kill()
        return None, "".join(process.communicate())


def start(words, before=None, **files):
    usual = {"stdin": subprocess.DEVNULL, "stdout": subprocess.PIPE, "stderr": subprocess.PIPE, **files}
    return subprocess.Popen(words, text=True, preexec_fn=before, **usual)


def lack_of_memory_at_the_destination(program):
    """With any limit it ends before it listens, or has all that it needs."""
    found = set()
    if is_sanitized(program):
        return None
    for space in range(60 << 20, 170 << 20, 8 << 20):
        with tempfile.TemporaryDirectory(prefix="live-") as folder:
            place, plan = f"unix:{folder}/socket", ["--memory", "32M", "--threads", "2"]
            dest = pair.Side([str(program), "dest", "--listen", place, *plan], before=limited(space))
            dest.listening.wait(pair.PATIENCE)
            patience = [] if "listening" in dest.figures else ["--patience", "1"]
            source = pair.Side(
                [str(program), "source", "--connect", place, *plan, *pair.KEPT, *patience, "--rounds", "1"]
            )
            status, text = source.end()
            dest.ask_end()
            dest_status, said = dest.end()
        found.add(dest_status)
        if (
            (dest_status, status) not in ((pair.REFUSED, pair.LOST), (pair.DONE, pair.DONE))
            or (status == pair.LOST and "memory is right" not in text)
        ):
            return f"{space} bytes: source {status} {text}; destination {dest_status} {said}"
    return None if found == {pair.REFUSED, pair.DONE} else f"only {found}"


def lack_of_memory_at_the_source(program):
    """Once its guest runs it is kept, or moves."""
    found = set()
    if is_sanitized(program):
        return None
    for space in range(40 << 20, 150 << 20, 10 << 20):
        dest = pair.Side([str(program), "dest", "--listen", "127.0.0.1:0", "--memory", "32M", "--threads", "2"])
        dest.listening.wait(pair.PATIENCE)
        source = start(
            [
                program, "source", "--connect", f"127.0.0.1:{dest.number('listening', 'port')}", "--memory", "32M",
                "--threads", "2", *pair.KEPT, "--rounds", "1",
            ],
            limited(space),
        )
        status, said = ended(source)
        dest.ask_end()
        dest_status, text = dest.end()
        found.add(status)
        is_before = status == pair.REFUSED and dest_status == pair.LOST and "connected" not in said
        is_kept = status == pair.LOST and dest_status == pair.LOST and "memory is right" in said
        if not (is_before or is_kept or (status, dest_status) == (pair.DONE, pair.DONE)):
            return f"{space} bytes: source {status} {said}; destination {dest_status} {text}"
    return None if pair.DONE in found else f"only {found}"


def both_by(program, before, words=(), **files):
    """A migration whose sides are started so, and ended by the operator; both are to be done."""
    with tempfile.TemporaryDirectory(prefix="live-") as folder:
        place = f"unix:{folder}/socket"
        shared = ["--memory", "8M", "--threads", "2", "--pause", "100", *words]
        dest = start([program, "dest", "--listen", place, *shared], before, **files)
        source = start([program, "source", "--connect", place, *shared, *SLOW, *pair.KEPT], before, **files)
        try:
            status = source.wait(pair.PATIENCE)
        except subprocess.TimeoutExpired:
            status = None
        dest.send_signal(signal.SIGTERM)
        try:
            dest_status = dest.wait(pair.PATIENCE)
        except subprocess.TimeoutExpired:
            dest_status = None
        for side in (source, dest):
            side.kill()
            side.wait()
    return None if (status, dest_status) == (pair.DONE, pair.DONE) else f"source {status}, destination {dest_status}"


def nobody_reads(program):
    """Small pipes that are full before the end, for both streams."""
    near, far = os.pipe()
    with os.fdopen(near), os.fdopen(far, "w") as full:
        os.set_blocking(far, False)
        with contextlib.suppress(BlockingIOError):
            while os.write(far, bytes(4096)):
                pass
        os.set_blocking(far, True)
        return both_by(program, None, ["--progress"], stdout=full, stderr=full)


def descriptors_that_are_closed(program):
    def close_all():
        os.closerange(0, 3)
    return both_by(program, close_all, ["--progress"])


def full_disks(program):
    with open("/dev/full", "w") as full:
        return both_by(program, None, ["--progress", "--trace", "/dev/full"], stdout=full, stderr=full)


def files_that_are_no_sockets(program):
    """A file and a symbolic link stay as they are; a stale socket is removed."""
    with tempfile.TemporaryDirectory(prefix="live-") as folder:
        file, link, stale = (pathlib.Path(folder, name) for name in ("file", "link", "stale"))
        file.write_text("precious")
        link.symlink_to(stale)
        with socket.socket(socket.AF_UNIX) as gone:
            gone.bind(str(stale))
        for place in (file, link):
            for words in (["--listen", f"unix:{place}"], ["--listen", "127.0.0.1:0", "--control", f"unix:{place}"]):
                side = pair.Side([str(program), "dest", "--memory", "1M", *words])
                wrong = hurt.expect([("destination", side.end(), pair.REFUSED, "EADDRINUSE")])
                if wrong:
                    return wrong
        if file.read_text() != "precious" or not link.is_symlink():
            return "a file is gone"
        side = pair.Side([str(program), "dest", "--memory", "1M", "--listen", f"unix:{stale}"])
        side.listening.wait(pair.PATIENCE)
        side.ask_end()
        return hurt.expect([("destination", side.end(), pair.LOST, "it ends before the switch")])


def cancelled_before_the_switch(program):
    """By a signal, by a word, and by one after which the guest is to end at once; else it runs on until another one
    ends it."""
    for way in ("", "cancel", "cancel\nend"):
        both = hurt.Watched(program, [*hurt.PRECOPY, "--after", "60000"])
        both.at("source precopy")
        if way:
            both.source.order(way)
        else:
            both.source.ask_end()
        if "end" not in way:
            if not pair.wait_until(lambda: both.source.status("kept")):
                return "it is not kept"
            both.source.ask_end()
        said = both.source.end()
        wrong = hurt.expect(
            [
                ("source", said, pair.LOST, "cancelled by the operator"),
                ("source", said, pair.LOST, "its memory is right"),
            ]
        )
        both.dest.ask_end()
        both.dest.end()
        if wrong:
            return wrong
    return None


def not_cancelled_after_the_switch(program):
    both = hurt.Watched(program, hurt.SLOW)
    both.at("destination running")
    both.source.ask_end()
    answers = [both.source.order(word) for word in ("cancel", "end", "nothing", "status", "push-rate 0")]
    wrong = both.migration.finish()
    is_right = [answer.get("ok") for answer in answers] == [False, False, False, None, True] and answers[3]["switched"]
    return (
        wrong
        or (None if is_right and "the signal is refused" in both.source.text else f"{answers}, {both.source.text}")
    )


def a_control_socket_that_is_abused(program):
    """More clients than there are places, lines that are none, lines without end, and answers that no one reads; then a
    right word."""
    both = hurt.Watched(program, hurt.SLOW)
    both.at("destination running")
    place = both.dest.words[both.dest.words.index("--control") + 1].removeprefix("unix:")
    with contextlib.ExitStack() as stack:
        for text in (
            b"x" * 100000,
            b"\n" * 5000,
            b"status\n" * 20000,
            b"watch\n" * 5,
            b"end 1\n\0\xff\n",
            b"patience 99999999999\n",
        ) * 2:
            client = stack.enter_context(socket.socket(socket.AF_UNIX))
            client.settimeout(0.2)
            with contextlib.suppress(OSError):
                client.connect(place)
                client.sendall(text)
    does_run = both.dest.status("runs")
    return both.finish() or (None if does_run else "the guest does not run")


def a_rate_of_precopy(program):
    """A round of 2,048 pages, of which some are untouched, at 4,000 in a second."""
    migration = pair.Migration([*SMALL], ["--rounds", "1", "--rate", "4000"], [], program)
    wrong = migration.finish()
    took = migration.source.number("source", "stop") - migration.source.number("source", "start")
    return wrong or (None if took > 3e8 else f"{took / 1e9} s")


def bytes_on_the_urgent_connection(program):
    """A destination that sends there is refused by name, and takes no memory."""
    with socket.create_server(("127.0.0.1", 0)) as server:
        source = pair.Side(
            [
                str(program), "source", "--connect", f"127.0.0.1:{server.getsockname()[1]}", *hurt.MEMORY,
                *hurt.PRECOPY, *pair.KEPT,
            ]
        )
        main, urgent = server.accept()[0], server.accept()[0]
        with main, urgent, contextlib.suppress(OSError):
            main.sendall(hurt.hello())
            for _ in range(1000):
                urgent.sendall(bytes(65536))
        said = source.end()
    return hurt.expect(
        [
            ("source", said, pair.LOST, "bytes on the urgent connection"),
            ("source", said, pair.LOST, "its memory is right"),
        ]
    )


class Flood:
    """Connects to a door again and again, says the first bytes of something, or nothing, and stays."""

    def __init__(self, address, rate, text):
        self.address, self.rate, self.text, self.is_over, self.made, self.open = address, rate, text, False, 0, []
        self.thread = threading.Thread(target=self.run, daemon=True)
        self.thread.start()

    def run(self):
        begun = time.monotonic()
        while not self.is_over:
            if self.made > (time.monotonic() - begun) * self.rate:
                time.sleep(0.001)
                continue
            self.made += 1
            with contextlib.suppress(OSError):
                one = socket.socket()
                one.setblocking(False)
                one.connect_ex(self.address)
                self.open.append((one, not self.text))
            if len(self.open) > 20:
                self.say()

    def say(self):
        """Those that were made a moment ago speak; the oldest of many go."""
        for place, (one, has_said) in enumerate(self.open[:-10]):
            if not has_said:
                with contextlib.suppress(OSError):
                    one.send(self.text)
                self.open[place] = (one, True)
        while len(self.open) > 500:
            self.open.pop(0)[0].close()

    def end(self):
        self.is_over = True
        self.thread.join()
        for one, _ in self.open:
            one.close()
        return self.made


def floods_at_the_door(program):
    """A source far away, by TLS where it is built in, whose connection is cut after the switch, while strangers come
    all the time."""
    for rate, text in ((300, b""), (300, b"\x16\x03\x01"), (1000, b"\x16")):
        with tempfile.TemporaryDirectory(prefix="live-") as folder:
            key = pair.new_key(folder) if pair.has_tls(program) else []
            both = hurt.Watched(program, [*hurt.SLOW, "--cut", "main:post:100000"], memory=[*SMALL, *key], delay=0.02)
            both.at("destination running")
            flood = Flood(("127.0.0.1", both.dest.number("listening", "port")), rate, text)
            is_there = pair.wait_until(lambda: flood.made > 100 and both.source.status("breaks"))
            flood.end()
            wrong = both.finish()
        if wrong or not is_there:
            return wrong or f"{flood.made} strangers, {both.source.number('source', 'breaks')} breaks"
    return None


def cases_that_are_unknown(program):
    done = subprocess.run(
        [sys.executable, str(pair.FOLDER / "measure"), "--program", str(program), "nosuchcase"],
        capture_output=True,
        text=True,
        timeout=pair.PATIENCE,
    )
    return (
        None
        if done.returncode == pair.REFUSED and "nosuchcase" in done.stdout + done.stderr
        else f"status {done.returncode}, {done.stdout}{done.stderr}"
    )


def lines_with_times(program):
    migration = pair.Migration(SMALL, ["--rounds", "0", "--cut", "main:post:200000"], [], program)
    wrong = migration.finish()
    form = re.compile(r"live: \d\d:\d\d:\d\d\.\d{3}Z (source|destination): \S+, epoch \d+")
    for side in (migration.source, migration.dest):
        # (the new connection may be seen before the old one's end)
        for words in ("connected",), ("broken", "has come again"), ("epoch 2",):
            if not any(form.match(line) and word in line for line in side.text.splitlines() for word in words):
                wrong = wrong or f"no line with `{words[0]}`: {side.text}"
    return wrong


CASES = (
    a_stopped_destination, a_stopped_source, half_open_connections, plans_that_differ,
    lack_of_memory_at_the_destination, lack_of_memory_at_the_source, nobody_reads, descriptors_that_are_closed,
    full_disks, files_that_are_no_sockets, cancelled_before_the_switch, not_cancelled_after_the_switch,
    a_control_socket_that_is_abused, a_rate_of_precopy, bytes_on_the_urgent_connection, floods_at_the_door,
    cases_that_are_unknown, lines_with_times,
)
