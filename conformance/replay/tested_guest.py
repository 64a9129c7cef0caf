"""The destination's guest while a program under test is its handler: the processors, and the userfault object that the
handler's calls are made on.

A map call is read to its end in the step that makes it. So no call overlaps another one, and no message of a call is
unread between two steps."""

import struct

from .errors import Finding
from .guest import event_of
from .host import Host
from .pages import PAGE, PROTECTIONS, name
from .script import Load, Mmap, Store

# The three events and the thread's number in each fault, and what a host asks for besides.
FEATURES = 0x14D
MODE = 1
PAGEFAULT, EVENTS = 0x12, {"remap": 0x14, "remove": 0x15, "unmap": 0x16}


def message_bytes(words):
    """The 32 bytes of struct uffd_msg, of a message as a host writes it."""
    kind, *numbers = words[0], *(int(word, 0) for word in words[1:])
    if kind == "fault":
        addr, flags, thread = numbers
        return struct.pack("<B7xQQI4x", PAGEFAULT, flags, addr, thread)
    return struct.pack("<B7x3Q", EVENTS[kind], *numbers, *[0] * (3 - len(numbers)))


class Waiting:
    """A load or store that must be made again. is_asleep: its thread sleeps in the kernel; is_read: and the handler
    has read its message."""

    def __init__(self, command, is_asleep=False):
        self.command, self.is_asleep, self.is_read = command, is_asleep, False
        self.page = command.addr // PAGE


class TestedGuest:
    """waiting: by processor. before_events, give_message: what happens while a map call sleeps on an event. is_ending:
    the last event of a call was read, and nothing was put since."""

    mode, is_ending = MODE, False

    def __init__(self, settings, record, before_events, give_message):
        self.settings, self.record = settings, record
        self.before_events, self.give_message = before_events, give_message
        self.host = Host(settings, record)
        self.threads = [int(word) for word in self.host.ask("threads").split()]
        self.host.must(f"open 0x{FEATURES:x}")
        self.waiting, self.calling, self.said, self.events = {}, None, "", []

    def close(self):
        self.host.close()

    def not_stuck(self, said, what):
        if said in ("stuck", "busy"):
            raise Finding(f"{said}: {what}")
        return said

    def begin(self, areas, commands, kept):
        """What a package says: the areas, the commands that wait, and the pages that were sent before it."""
        for first, pages, protection in areas:
            start = first * PAGE
            value, events = self.call_through(0, Mmap(pages * PAGE, PROTECTIONS[protection], "noreplace", start))
            if value != start or events:
                raise Finding(f"an area of the package: {value} {events}")
        self.host.register(MODE)
        for page, data in sorted(kept.items()):
            self.host.put(page, data)
        for cpu, command in enumerate(commands):
            if command:
                self.wait(cpu, (Load, Store)[len(command) - 2](*command))

    # ---- messages ----

    def has_unread_event(self):
        return self.calling is not None and self.said == "blocked"

    def unread(self):
        """Those of whose faults the kernel has a message."""
        return [waiting for waiting in self.waiting.values() if waiting.is_asleep and not waiting.is_read]

    def read(self):
        """The words of the kernel's next message, and the event if it is one; nothing where it has none."""
        words = self.host.ask("read").split()
        if words == ["none"]:
            return None, None
        if words[0] != "fault":
            return words, self.see_event(words)
        self.record.check("fault messages read")
        cpu = self.threads.index(int(words[3])) if int(words[3]) in self.threads else None
        waiting = self.waiting.get(cpu)
        if not waiting or not waiting.is_asleep or name(waiting.page) != words[1]:
            raise Finding(f"message {' '.join(words)} of a thread that does not sleep there")
        waiting.is_read = True
        return words, None

    def see_event(self, words):
        """A map call continues once its event is read: to its next event, or to its end."""
        event = event_of(words)
        if self.calling is None:
            raise Finding(f"message {' '.join(words)} without a call")
        self.record.check(f"{event.kind} messages read")
        self.said = self.not_stuck(self.host.ask(f"await {self.calling}"), f"a call of cpu {self.calling}")
        self.is_ending = self.said != "blocked"
        self.events.append(event)
        return event

    # ---- loads and stores ----

    def make(self, cpu, command):
        """The reply to a load or store, or `blocked`: then it waits."""
        said = self.not_stuck(self.host.ask(f"cpu {cpu} {command.text()}"), f"an access of cpu {cpu}")
        self.waiting.pop(cpu, None)
        if said == "blocked":
            self.waiting[cpu] = Waiting(command, is_asleep=True)
        return said.removesuffix(" zeropage")

    def wait(self, cpu, command):
        """A load or store that is made later."""
        self.waiting[cpu] = Waiting(command)

    def see_woken(self, start, end):
        """An ioctl has woken who sleeps in a range. A thread runs, and sleeps again where its page is still missing."""
        for cpu, waiting in self.waiting.items():
            if waiting.is_asleep and start <= waiting.command.addr < end:
                said = self.not_stuck(self.host.ask(f"await {cpu}"), f"cpu {cpu} was to be woken")
                self.record.check("sleepers woken")
                waiting.is_asleep, waiting.is_read = said == "blocked", False

    def put(self, page, data, mode):
        """UFFDIO_COPY, or UFFDIO_ZEROPAGE where there are no bytes: what the kernel says. Once the last event of a call
        was read it says EAGAIN until the call has gone on; here that is once."""
        if self.is_ending:
            self.is_ending = False
            return "refused EAGAIN"
        said = self.host.ask(
            f"copy {name(page)} {mode} {data.hex()}" if data else f"zeropage {name(page)} {PAGE} {mode}"
        )
        if said == "ok" and not mode & 1:
            self.see_woken(page * PAGE, page * PAGE + PAGE)
        return said

    def wake(self, start, length):
        said = self.host.ask(f"wake 0x{start:x} {length}")
        if said == "ok":
            self.see_woken(start, start + length)
        return said

    # ---- map calls, as map_calls.py makes them ----

    def call_through(self, cpu, command):
        """Makes a call, of which the handler reads the messages: what it returns, and they."""
        self.calling, self.events = cpu, []
        self.said = self.host.ask(f"cpu {cpu} {command.text()}")
        if self.said == "blocked":
            self.before_events()
        while self.said == "blocked":
            self.give_message()
        self.calling, self.is_ending = None, False
        return int(self.not_stuck(self.said, command.text()).split()[1]), self.events

    def call(self, cpu, command, wanted, in_order=True):
        return self.call_through(cpu, command)

    def attempt(self, command):
        """What a call returns on a copy of the process."""
        return int(self.host.ask(f"try {command.text()}").split()[1])
