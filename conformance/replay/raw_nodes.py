"""Nodes of which nothing is arranged: each message stays in the kernel until a step reads it, in the kernel's order,
and a call ends when the kernel ends it."""

from dataclasses import dataclass
from typing import Any

from . import map_calls
from .destination import Destination
from .errors import Finding, Refused
from .guest import Asleep, Guest, Idle, InCall, event_of
from .host import refusal
from .pages import HIGH, PAGE, meets, name
from .script import Dontneed, Munmap
from .source import Source
from .world import World


@dataclass
class LogEntry:
    """A command that took effect: the steps in which it began and ended, and its place in the transcript. A map call
    has its place where it was made, and a dontneed where it ended, since the kernel clears only then."""

    first: int
    last: int
    at: float
    entry: tuple


@dataclass
class RawCall:
    cpu: int
    command: Any
    logged: LogEntry

    def is_in_kernel(self):
        return True


class RawGuest(Guest):
    def calls(self):
        return [state.call for state in self.states if isinstance(state, InCall)]

    def fall_asleep(self, cpu, command):
        self.states[cpu] = Asleep(command)

    def forget(self, cpu):
        pass

    def drain(self):
        pass

    def read_event(self):
        self.record.check("event message")
        return event_of(self.host.ask("read").split())

    def call_through(self, cpu, command):
        # Beside other calls and sleepers its messages would not come alone.
        if self.calls() or any(isinstance(state, Asleep) for state in self.states):
            raise Refused("Skipped")
        return super().call_through(cpu, command)

    def call(self, cpu, command, wanted, in_order=True):
        said = self.not_stuck(self.host.ask(f"cpu {cpu} {command.text()}"), command.text())
        return None if said == "blocked" else (int(said.split()[1]), [])


class RawNode:
    """old_places: with `skip_old`, the UNMAPs to come that every REMAP has after it."""

    old_places = ()

    def perform_map_call(self, cpu, command):
        if self.world.settings.serial and self.guest.calls():
            raise Refused("Skipped")
        made = map_calls.make(self.guest, cpu, command)
        if made.value is None:
            if made.is_entered:
                self.world.enter(cpu, command, made.reply)
            for event in made.messages:
                self.take_event(event)
            return f"cpu {cpu} {made.reply}"
        logged = self.world.enter(cpu, command, made.reply)
        self.guest.states[cpu] = InCall(RawCall(cpu, command, logged))
        self.record.check("map call asleep in the kernel")
        if len(self.guest.calls()) > 1:
            self.record.check("map call asleep in the kernel beside another")
        return f"cpu {cpu} in call"

    def require_unchanging(self, ioctl=None):
        if not self.guest or not self.guest.calls():
            return
        if ioctl:
            said = self.guest.host.ask(ioctl)
            self.record.check("ioctl that is EAGAIN while an event is unread")
            if said != "refused EAGAIN":
                raise Finding(f"{ioctl[:60]} -> {said} while an event is unread")
        raise Refused("Changing")

    def take_event(self, event):
        """What a node does with an event. UNMAP of the old place of a REMAP is like any other, or left out."""
        self.guest.wake_gone(*event.left_range())
        if self.world.settings.skip_old and event.kind == "remap":
            self.old_places = [*self.old_places, event.left_range()]
        elif event.kind == "unmap" and event.left_range() in self.old_places:
            self.old_places.remove(event.left_range())
            return
        self.follow(event)

    def read_message(self):
        words = self.guest.host.ask("read").split()
        if words == ["none"]:
            raise Refused("NothingThere")
        if words[0] == "fault":
            self.record.check("fault message")
            page, is_protected = int(words[1], 16) // PAGE, bool(int(words[2]) & 2)
            self.held.append((page, is_protected))
            return f"read fault {name(page)} {'write-protect' if is_protected else 'missing'}", None
        self.record.check("event message")
        event = event_of(words)
        self.take_event(event)
        ended = "".join(self.see_ended(call, event) for call in self.guest.calls())
        return f"read {event.text()}{ended}", None

    def see_ended(self, call, event):
        said = self.guest.not_stuck(self.guest.host.ask(f"await {call.cpu}"), f"a call of cpu {call.cpu}")
        is_dontneed = isinstance(call.command, Dontneed)
        if said == "blocked":
            if is_dontneed and event.kind == "remove" and event.first == call.command.addr:
                # Another call has split its range: one step of a transcript takes several in the kernel.
                self.record.check("dontneed in several steps")
            return ""
        self.guest.states[call.cpu] = Idle()
        reply = reply_of(call.command, int(said.split()[1]))
        self.world.end_call(call, reply, is_dontneed)
        return f", cpu {call.cpu} {reply}"


def reply_of(command, value):
    if value < 0:
        return refusal(value)
    return "done" if isinstance(command, (Munmap, Dontneed)) else f"at 0x{value:x}"


class RawSource(RawNode, Source):
    pass


class RawDestination(RawNode, Destination):
    def install(self):
        """A table that follows the messages may hold a page where nothing is registered any more: UFFDIO_COPY is ENOENT
        there."""
        if self.has_run and self.arrivals and not self.guest.calls():
            origin = self.arrivals[0][0]
            page = next((page for page, other in self.owed.items() if other == origin), None)
            if page is not None and not self.is_registered(page):
                self.record.check("install where nothing is registered")
                self.arrivals.popleft()
                del self.owed[page]
                self.dropped += 1
                return f"dropped {name(origin)}: ENOENT"
        return super().install()

    def is_registered(self, page):
        return meets(self.guest.host.registered(), page * PAGE, page * PAGE + PAGE)


class RawWorld(World):
    source_class, destination_class, guest_class = RawSource, RawDestination, RawGuest

    def __init__(self, settings):
        super().__init__(settings)
        self.log, self.steps_made = [], 0

    def step(self, step):
        self.steps_made += 1
        return super().step(step)

    def enter(self, cpu, command, reply):
        self.log.append(LogEntry(self.steps_made, self.steps_made, self.steps_made, (cpu, command, reply)))
        return self.log[-1]

    def end_call(self, call, reply, is_dontneed):
        logged = call.logged
        cpu, command, expected = logged.entry
        logged.last = self.steps_made
        if is_dontneed:
            logged.at, logged.entry = self.steps_made, (cpu, command, reply)
        elif reply != expected:
            raise Finding(f"cpu {cpu}: {reply}, expected {expected}")

    def memory(self):
        """Once each call has ended."""
        node = self.running()
        while node.guest and node.guest.calls():
            self.steps_made += 1
            node.read()
        if node.guest and self.destination.has_run:
            self.drop_unregistered()
        return super().memory()

    def drop_unregistered(self):
        owed, registered = self.destination.owed, self.destination.guest.host.registered()
        for page in [page for page in owed if not meets(registered, page * PAGE, page * PAGE + PAGE)]:
            self.record.check("owed where nothing is registered, at the end")
            del owed[page]

    def loads_beside_log(self, areas):
        """Loads of what the map calls have named and what is not mapped."""
        named = set()
        for cpu, command, reply in (logged.entry for logged in self.log):
            if hasattr(command, "width"):
                continue
            named.update((command.addr // PAGE * PAGE, (getattr(command, "target", 0) or 0) // PAGE * PAGE))
            if reply.startswith("at "):
                named.add(int(reply[5:], 16))
        free = [
            addr
            for addr in sorted(named)
            if 0x10000 <= addr < HIGH and not meets([area[:2] for area in areas], addr, addr + 1)
        ]
        return [f"0 load 0x{addr:x} 8 => segv unmapped" for addr in free]
