"""Judges a handler that has a real descriptor: by what its ioctls have done, since they are not seen.

The program is stopped but for its turns. In a turn it runs until it waits for more, with nothing left to read: then
each of its threads sleeps in the kernel. What it has put is looked up in the guest's memory, and the events that it has
read follow from the guest's call."""

import array
import fcntl
import os
import pathlib
import select
import signal
import socket
import subprocess
import sys
import tempfile
import time

from model import frames

from .duties import FRAMES, RESOLVE
from .errors import Wrong
from .guest import Event
from .handling import MOST_SLEEPS, Handling
from .host import number_range
from .pages import HIGH, PAGE, name
from .simulated import Memory
from .tested_guest import TestedGuest
from .tested_program import CALLS, how_it_ended

SIOCOUTQ = 0x5411
# The bytes that a socket takes although no one reads them.
MOST_AT_REST = 1 << 16
# Seconds between two looks at the threads, in which they may have the processor.
BETWEEN_LOOKS = 0.0002
# Where a thread waits for a time, and not for something to read.
TIMERS = ("nanosleep",)


def borrowed(host):
    """The descriptor of a host's userfault object."""
    with tempfile.TemporaryDirectory() as folder, socket.socket(socket.AF_UNIX) as listener:
        listener.bind(f"{folder}/host")
        listener.listen()
        host.must(f"lend {folder}/host")
        with listener.accept()[0] as peer:
            return socket.recv_fds(peer, 1, 1)[1][0]


def threads_of(pid):
    """(state, where it waits, how often it left the processor) of each thread of a process."""
    for task in pathlib.Path(f"/proc/{pid}/task").iterdir():
        try:
            state = (task / "stat").read_text().rpartition(")")[2].split()[0]
            switches = [line for line in (task / "status").read_text().splitlines() if "ctxt_switches" in line]
            yield state, (task / "wchan").read_text(), *switches
        except OSError:
            yield "R", "", task.name  # (it ends)


class DescriptorProgram:
    """Its standard input is a Unix socket. The descriptor comes first on it, with one byte, and then the frames of the
    source."""

    def __init__(self, words, settings, descriptor):
        self.settings, self.descriptor, self.unread = settings, descriptor, b""
        self.channel, theirs = socket.socketpair()
        with theirs:
            self.process = subprocess.Popen(words, stdin=theirs, stdout=sys.stderr)
        self.channel.setblocking(False)
        socket.send_fds(self.channel, [b"\0"], [descriptor])

    def send(self, data):
        if len(data) > MOST_AT_REST:
            self.process.send_signal(signal.SIGCONT)
        self.channel.setblocking(True)
        try:
            self.channel.sendall(data)
        except OSError:
            pass  # (it has ended, which is seen when it should run)
        self.channel.setblocking(False)

    def has_unread(self):
        """Whether a message or a byte waits for it."""
        waiting = array.array("i", [0])
        fcntl.ioctl(self.channel, SIOCOUTQ, waiting)
        return waiting[0] > 0 or bool(select.select([self.descriptor], [], [], 0)[0])

    def run(self):
        """It runs until it waits for more."""
        self.process.send_signal(signal.SIGCONT)
        end, before = time.monotonic() + self.settings.patience, None
        while True:
            if self.process.poll() is not None:
                raise Wrong("a handler that waits for more", how_it_ended(self.process.returncode), CALLS)
            now = None if self.has_unread() else sorted(threads_of(self.process.pid))
            if (
                now
                and now == before
                and all(state == "S" and not any(it in where for it in TIMERS) for state, where, *_ in now)
            ):
                break
            if time.monotonic() > end:
                raise Wrong("all that waits is read", f"it is not, after {self.settings.patience} seconds", CALLS)
            before = now
            time.sleep(BETWEEN_LOOKS)
        self.process.send_signal(signal.SIGSTOP)

    def frames(self):
        """What it has sent since."""
        while select.select([self.channel], [], [], 0)[0]:
            piece = self.channel.recv(1 << 16)
            if not piece:
                break
            self.unread += piece
        found, length, fault = frames.read(self.unread)
        if fault not in ("", "truncated"):
            raise Wrong("frames of version 2", fault, FRAMES)
        self.unread = self.unread[length:]
        return found

    def end(self):
        self.channel.shutdown(socket.SHUT_WR)
        self.process.send_signal(signal.SIGCONT)
        try:
            status = self.process.wait(self.settings.patience)
        except subprocess.TimeoutExpired:
            raise Wrong("an end with the channel's", f"none for {self.settings.patience} seconds", CALLS) from None
        if status:
            raise Wrong("status 0 at the end of the channel", how_it_ended(status), CALLS)

    def close(self):
        if self.process.poll() is None:
            self.process.kill()
            self.process.wait()
        self.channel.close()
        os.close(self.descriptor)


class WatchedGuest(TestedGuest):
    """coming: the events of the call that waits, until they are read."""

    coming = ()

    def expected_events(self, command):
        """The messages that a kernel has of a call, by the map before it."""
        memory = Memory()
        for word in self.host.ask("areas s").split()[1:]:
            ends, protection, modes = word.split(":")
            start, end = number_range(ends)
            pages = range(start // PAGE, min(end, HIGH) // PAGE)
            memory.protections.update(dict.fromkeys(pages, protection))
            memory.modes.update(dict.fromkeys(pages, int(modes)) if modes != "0" else {})
        memory.call(command)
        return [Event(kind, *numbers) for kind, numbers, _ in memory.events]

    def call_through(self, cpu, command):
        events = self.coming = self.expected_events(command)
        returned, _ = super().call_through(cpu, command)
        self.coming = ()
        return returned, events

    def see_processors(self):
        """After a turn: a call continues, and each sleeper is woken or has its message read."""
        if self.has_unread_event():
            self.said = self.not_stuck(self.host.ask(f"await {self.calling}"), f"a call of cpu {self.calling}")
        for cpu, waiting in self.waiting.items():
            if not waiting.is_asleep:
                continue
            if self.not_stuck(self.host.ask(f"asleep {cpu}"), f"cpu {cpu}") == "done":
                self.host.ask(f"await {cpu}")
                self.record.check("sleepers woken")
                waiting.is_asleep = False
            waiting.is_read = True


class DescriptorHandling(Handling):
    guest_class = WatchedGuest

    def start_program(self):
        self.program = DescriptorProgram(self.job.implementation, self.job.settings, borrowed(self.guest.host))

    def give_frame(self, epoch, kind_of_frame, fields):
        self.record.check(f"frames given: {kind_of_frame}")
        self.program.send(frames.encode(epoch, kind_of_frame, fields))
        self.give_message()

    def give_message(self):
        """A turn: the program reads all that waits, also what comes as it wakes processors, which may fault again."""
        before = self.guest.host.present()
        for _ in range(MOST_SLEEPS):
            self.program.run()
            self.guest.see_processors()
            if self.guest.has_unread_event():
                return
            if not self.program.has_unread():
                break
        else:
            raise Wrong("faults that are resolved", "processors are woken, and sleep at once again", RESOLVE)
        for event in self.guest.coming:
            self.record.check(f"{event.kind} messages read")
            self.duties.follow(event)
        self.guest.coming = ()
        self.see_puts(self.guest.host.present() - before)
        self.take_frames()
        self.duties.check(self.guest, self.is_up)

    def see_puts(self, pages):
        for page in sorted(pages):
            data = self.guest.host.page(page)
            self.duties.judge_put(f"a page at {name(page)}", page, data)
            self.record.check("pages put by the handler")
            self.duties.see_put(page, "ok")

    def take_frames(self):
        """What was sent while the channel was lost is lost with it, and so is what one thread still sends as another
        one takes Resume."""
        for frame in self.program.frames():
            is_late = self.duties.owes_report and frame[0] < self.duties.epoch
            if self.is_up and not is_late:
                self.record.check(f"frames sent: {frame[1]}")
                self.duties.take_back(*frame)

    def give_messages(self):
        self.give_message()
        super().give_messages()
