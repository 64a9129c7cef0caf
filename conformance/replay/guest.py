"""A guest on one host: its processors, and the messages that its userfaultfd has.

The model has one queue of unread faults, with one message for each page and kind. A kernel has one for each thread that
sleeps, and takes it away once the thread is woken. Here the model's queue (`faults`) is kept beside the kernel's
(`unread`), and a read of the model reads the kernel's messages up to the one that it needs."""

from collections import deque
from typing import Any, NamedTuple

from .errors import Finding
from .host import Host
from .pages import HIGH, PAGE, name
from .script import Load, Store

THREAD_ID = 0x100
WIDTHS = (1, 2, 4, 8)


class Idle(NamedTuple):
    pass


class Asleep(NamedTuple):
    """A load or store that sleeps in the kernel."""

    command: Any


class Woken(NamedTuple):
    """A load or store that must be made again by a retry."""

    command: Any


class InCall(NamedTuple):
    """A map call of which messages are unread by the model's rules."""

    call: Any


class Event(NamedTuple):
    """remap: from, to, length. remove, unmap: start, end."""

    kind: str
    first: int
    second: int
    length: int = 0

    def left_range(self):
        """The range that reads otherwise now: what was moved away, cleared or unmapped."""
        return self.first, self.first + self.length if self.kind == "remap" else self.second

    def text(self):
        behind = f" {self.length}" if self.kind == "remap" else ""
        return f"{self.kind} 0x{self.first:x} 0x{self.second:x}{behind}"


class Fault(NamedTuple):
    """A fault of which the kernel has a message."""

    page: int
    is_protected: bool
    cpu: int
    is_store: bool


def event_of(words):
    if words[0] not in ("remap", "remove", "unmap"):
        raise Finding(f"a call sleeps, and the message is {' '.join(words)}")
    return Event(words[0], int(words[1], 16), int(words[2], 16), *map(int, words[3:]))


class Call:
    """A map call in progress. wanted: its messages by the model's rules, in the model's order. value: what it will
    return; None where it has returned, and the kernel has none of its messages any more."""

    def __init__(self, cpu, made):
        self.cpu, self.reply, self.wanted = cpu, made.reply, list(made.messages)
        self.left, self.read, self.value = len(self.wanted), 0, made.value
        self.has_several = any(event.kind != "unmap" for event in self.wanted)

    def is_in_kernel(self):
        return self.value is not None

    def end(self, value):
        if value != self.value:
            raise Finding(f"a call that slept returns {value}, and not {self.value}")
        self.value = None

    def compare(self, events):
        """Of a call whose messages were read early: the kernel has one more for each move, UNMAP of the old place."""
        moved = [Event("unmap", *event.left_range()) for event in self.wanted if event.kind == "remap"]
        if self.wanted[self.read :] != [event for event in events if event not in moved]:
            raise Finding(f"messages {events}, and by the model {self.wanted[self.read:]}")


class Guest:
    def __init__(self, settings, record, features, mode):
        self.settings, self.record = settings, record
        self.mode = mode  # of what this node registers
        self.host = Host(settings, record)
        self.faults = deque()  # the model's queue: (page, whether it is a write-protect fault)
        self.unread = []  # the faults of which the kernel has a message
        self.events = deque()  # the model's queue: (call, event). Of a call in the kernel the kernel has the message
        self.states = [Idle()] * settings.cpus
        self.threads = [int(word) for word in self.host.ask("threads").split()]
        self.names_threads = bool(features & THREAD_ID)
        self.host.must(f"open 0x{features:x}")

    def close(self):
        self.host.close()

    def not_stuck(self, said, what):
        if said == "stuck":
            raise Finding(f"neither done nor asleep in time: {what}")
        return said

    # ---- faults ----

    def fall_asleep(self, cpu, command):
        """The message stays in the kernel until the script reads it; with `eager` it is read now."""
        page, is_store = command.addr // PAGE, isinstance(command, Store)
        is_protected = is_store and self.host.is_protected(page)
        self.unread.append(Fault(page, is_protected, cpu, is_store))
        if (page, is_protected) in self.faults:
            self.record.tag("fault-of-each-thread")
        else:
            self.faults.append((page, is_protected))
        self.states[cpu] = Asleep(command)
        if self.settings.eager:
            self.read_fault()

    def read_fault(self):
        """The kernel's next message is that of the thread which has slept longest of those whose message was not
        read."""
        self.record.check("fault message compared with its cause")
        fault = self.unread.pop(0)
        words = self.host.ask("read").split()
        flags = fault.is_store + 2 * fault.is_protected
        wanted = ["fault", name(fault.page), str(flags), str(self.threads[fault.cpu]) if self.names_threads else "0"]
        if words != wanted:
            raise Finding(f"message {' '.join(words)}, and not {' '.join(wanted)}")

    def next_fault(self):
        """The model's next fault, and the kernel's messages up to it. The kernel has none where the thread was woken
        before."""
        page, is_protected = self.faults.popleft()
        found = [at for at, fault in enumerate(self.unread) if (fault.page, fault.is_protected) == (page, is_protected)]
        if not found:
            if not self.settings.eager:
                self.record.tag("fault-taken-away")
            return page, is_protected
        if found[0] > 0:
            self.record.tag("order-of-faults")
        for _ in range(found[0] + 1):
            self.read_fault()
        return page, is_protected

    def forget(self, cpu):
        """The kernel takes the message of a thread away once the thread is woken."""
        self.unread = [fault for fault in self.unread if fault.cpu != cpu]

    # ---- sleeping and waking ----

    def sleepers(self, start, end):
        return [
            cpu
            for cpu, state in enumerate(self.states)
            if isinstance(state, Asleep) and start <= state.command.addr < end
        ]

    def sleepers_of(self, page):
        return self.sleepers(page * PAGE, page * PAGE + PAGE)

    def see_woken(self, cpus):
        """The ioctl before this has woken these: each of them must run, up to where its access would take effect."""
        for cpu in cpus:
            self.record.check("thread that an ioctl woke")
            said = self.not_stuck(self.host.ask(f"await {cpu}"), f"cpu {cpu} was to be woken")
            self.forget(cpu)
            if said == "blocked":
                # It needs the page again at once; in the model it sleeps when it tries again.
                self.record.tag("sleeps-again")
                self.kick(cpu)
            self.states[cpu] = Woken(self.states[cpu].command)

    def kick(self, cpu):
        """A signal takes a thread out of the kernel, as KVM_RUN is left with EINTR."""
        self.not_stuck(self.host.ask(f"kick {cpu}"), f"cpu {cpu} was to be stopped")
        self.forget(cpu)

    def wake_by(self, page, line):
        """An ioctl that wakes who sleeps on a page."""
        cpus = self.sleepers_of(page)
        self.host.must(line)
        self.see_woken(cpus)

    def wake_gone(self, start, end):
        """Those asleep in a range that is gone or cleared, by UFFDIO_WAKE. Where something is mapped a thread would
        make its page present before its retry: it is stopped instead."""
        cpus = self.sleepers(start, end)
        if not cpus:
            return
        areas, to_wake = self.host.kernel_areas(), []
        for cpu in cpus:
            command = self.states[cpu].command
            if any(first <= command.addr < last for first, last, _ in areas):
                self.kick(cpu)
                self.states[cpu] = Woken(command)
                self.record.tag("stopped-and-retried")
            else:
                to_wake.append(cpu)
        self.host.must(f"wake 0x{start:x} {end - start}")
        self.see_woken(to_wake)

    def check_states(self):
        """After each step: who runs in the kernel is who should."""
        said = self.host.ask("states")
        for cpu, state in enumerate(self.states):
            sleeps = isinstance(state, Asleep) or isinstance(state, InCall) and state.call.is_in_kernel()
            if (said[cpu] == "r") != sleeps:
                raise Finding(f"cpu {cpu} is {said[cpu]} in the kernel, and {type(state).__name__} by the protocol")

    # ---- loads and stores ----

    def access(self, cpu, command):
        """The reply to a load or store, or None where it sleeps."""
        if has_wrong_form(command):
            self.record.tag("model-only")
            return "bad access"
        if command.addr >= HIGH:
            self.record.tag("model-only")
            return "segv unmapped"
        said = self.not_stuck(self.host.ask(f"cpu {cpu} {command.text()}"), f"an access of cpu {cpu}")
        if said == "blocked":
            self.fall_asleep(cpu, command)
            return None
        if said.endswith(" zeropage"):
            self.record.tag("page-of-zeros")
        return said.removesuffix(" zeropage")

    # ---- map calls ----

    def read_event(self):
        # (the kernel hands out faults before events)
        while self.unread:
            self.record.tag("faults-read-first")
            self.read_fault()
        self.record.check("event message compared with its cause")
        return event_of(self.host.ask("read").split())

    def call_through(self, cpu, command):
        """Makes a call, and reads its messages at once: what it returns, and the messages."""
        self.drain()
        events = []
        said = self.host.ask(f"cpu {cpu} {command.text()}")
        while said == "blocked":
            events.append(self.read_event())
            said = self.host.ask(f"await {cpu}")
        return int(self.not_stuck(said, command.text()).split()[1]), events

    def call(self, cpu, command, wanted, in_order=True):
        """Makes a call of which the messages must be `wanted`. It is left asleep in the kernel on the first one, and
        None is answered, where the order of the kernel's messages is the model's (`in_order`). Else they are read at
        once: what it returns, and they."""
        several = any(event.kind != "unmap" for event in wanted)
        asleep = [call for call, _ in self.events if call.is_in_kernel()]
        # Of two calls that sleep at once, the kernel has the second message of one after the first of the other.
        mixed = asleep and (several or any(call.has_several for call in asleep))
        if not wanted or self.settings.eager or not in_order or mixed:
            return self.call_through(cpu, command)
        said = self.not_stuck(self.host.ask(f"cpu {cpu} {command.text()}"), command.text())
        return None if said == "blocked" else (int(said.split()[1]), [])

    def attempt(self, command):
        """What a call returns on a copy of the process."""
        return int(self.host.ask(f"try {command.text()}").split()[1])

    def drain(self):
        """The kernel's unread messages are read, each call's to its end."""
        for call in dict.fromkeys(call for call, _ in self.events if call.is_in_kernel()):
            events, said = [], "blocked"
            while said == "blocked":
                events.append(self.read_event())
                said = self.not_stuck(self.host.ask(f"await {call.cpu}"), f"a call of cpu {call.cpu}")
            call.end(int(said.split()[1]))
            call.compare(events)
            self.record.tag("read-early")

    def next_event(self):
        """The model's next event; of a call in the kernel it is read there. Answers (event, the call that ends with
        it)."""
        call, event = self.events.popleft()
        if call.is_in_kernel():
            self.read_in_kernel(call, event)
        self.wake_gone(*event.left_range())
        call.left -= 1
        if call.left:
            return event, None
        self.states[call.cpu] = Idle()
        return event, call

    def read_in_kernel(self, call, event):
        found = self.read_event()
        if found != event:
            raise Finding(f"read {found}, and by the model {event}")
        call.read += 1
        said = self.host.ask(f"await {call.cpu}")
        if event.kind == "remap" and said == "blocked":
            # The kernel's own message: UNMAP of the old place.
            old = self.read_event()
            self.record.tag("messages-of-mremap")
            if old != Event("unmap", *event.left_range()):
                raise Finding(f"behind a REMAP: {old}")
            said = self.host.ask(f"await {call.cpu}")
        self.not_stuck(said, f"a call of cpu {call.cpu}")
        if (said == "blocked") != (call.left > 1):
            raise Finding(f"cpu {call.cpu}: {said}, with {call.left - 1} messages left")
        if said != "blocked":
            call.end(int(said.split()[1]))


def has_wrong_form(command):
    """Whether the model's reply is `bad access`."""
    if command.width not in WIDTHS or command.addr % command.width:
        return True
    return not isinstance(command, Load) and command.width < 8 and command.value >> 8 * command.width != 0
