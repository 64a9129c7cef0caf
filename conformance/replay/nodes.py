"""What both nodes of a migration do on a host: they make commands, read messages, resolve faults, and receive
frames."""

from collections import deque

from . import map_calls
from .errors import Finding, Refused
from .guest import Call, InCall
from .pages import PAGE, name
from .script import Load, Store


class Node:
    """guest: None once the memory is released. held: the faults that were read and not resolved."""

    def __init__(self, world):
        self.world, self.record, self.link = world, world.record, world.link
        self.guest = None
        self.held = deque()
        self.faults_read = 0

    # ---- commands ----

    def perform(self, cpu, command):
        """Makes a command on this node: the line, and whether it takes effect is noted in the transcript."""
        if isinstance(command, (Load, Store)):
            reply = self.guest.access(cpu, command)
            if reply is None:
                return f"cpu {cpu} asleep"
            self.world.enter(cpu, command, reply)
            return f"cpu {cpu} {reply}"
        return self.perform_map_call(cpu, command)

    def perform_map_call(self, cpu, command):
        made = map_calls.make(self.guest, cpu, command)
        if made.is_entered:
            self.world.enter(cpu, command, made.reply)
        if not made.messages:
            return f"cpu {cpu} {made.reply}"
        call = Call(cpu, made)
        self.guest.events.extend((call, event) for event in made.messages)
        self.guest.states[cpu] = InCall(call)
        return f"cpu {cpu} in call {len(made.messages)}"

    # ---- frames ----

    def receive(self, wire, count, take):
        """This number of bytes of a wire arrives, and the frame that they complete is taken. No frame of a world is
        refused."""
        frame = wire.arrive(count)
        if not frame:
            return f"moved {count}"
        try:
            return take(*frame)
        except Refused as reason:
            raise Finding(f"frame {frame[1]} of epoch {frame[0]} is refused: {reason}") from None

    # ---- the handler ----

    def read_message(self):
        """The model's next message, faults before events: the line, and the event if it is one."""
        if not self.guest.faults and not self.guest.events:
            raise Refused("NothingThere")
        if self.guest.faults:
            page, is_protected = self.guest.next_fault()
            self.held.append((page, is_protected))
            self.faults_read += 1
            return f"read fault {name(page)} {'write-protect' if is_protected else 'missing'}", None
        event, ended = self.guest.next_event()
        answered = f", cpu {ended.cpu} {ended.reply}" if ended else ""
        return f"read {event.text()}{answered}", event

    def require_unchanging(self, ioctl=None):
        """A step that installs, protects or sends is refused while an event is unread. Where the kernel itself has one,
        the step's ioctl is made, and must be EAGAIN."""
        guest = self.guest
        if not guest or not guest.events:
            return
        if ioctl and any(call.is_in_kernel() for call, _ in guest.events):
            said = guest.host.ask(ioctl)
            self.record.check("ioctl that is EAGAIN while an event is unread")
            if said != "refused EAGAIN":
                raise Finding(f"{ioctl[:60]} -> {said} while an event is unread")
        raise Refused("Changing")

    def make_zeros(self, page):
        """UFFDIO_ZEROPAGE, which also says what there is. Who sleeps on the page is woken in each case."""
        guest, cpus = self.guest, self.guest.sleepers_of(page)
        said = guest.host.ask(f"zeropage {name(page)} {PAGE} 0")
        if said == "ok":
            guest.see_woken(cpus)
            return f"zeroed {name(page)}"
        if said == "refused EEXIST":
            guest.wake_by(page, f"wake {name(page)} {PAGE}")
            return f"woke {name(page)}"
        if said == "refused ENOENT":
            guest.wake_gone(page * PAGE, page * PAGE + PAGE)
            return f"forgot {name(page)}"
        raise Finding(f"zeropage {name(page)} -> {said}")

