"""The source of a migration on a host: the node of bench/model, with a guest below it and wires beside it."""

from dataclasses import astuple

from model import nodes

from .errors import Finding, Refused
from .guest import Asleep, Guest, Woken
from .nodes import Node
from .pages import PAGE, PROTECTIONS, name, pages_of

# The four features of write protection and the three events, and the thread's number in each fault.
FEATURES = 0x14D
MODE = 3


class Source(Node, nodes.Source):
    def __init__(self, world, guest_class=Guest):
        nodes.Source.__init__(self)
        Node.__init__(self, world)
        self.guest = guest_class(world.settings, world.record, FEATURES, MODE)
        self.rounds, self.states_at_switch = 0, None
        self.clean, self.to_send, self.ever_sent = set(), set(), set()

    # ---- the host and the wires ----

    def transmit(self, name, fields, urgent=False):
        wire = self.link.urgent if urgent else self.link.forward
        wire.put(self.epoch, name, fields)

    def require_link(self):
        self.link.require_up()

    def present(self):
        return self.guest.host.present()

    def is_present(self, page):
        return self.guest.host.is_present(page)

    def bytes_of(self, page):
        return self.guest.host.page(page)

    def package(self):
        areas = [
            (start // PAGE, (end - start) // PAGE, PROTECTIONS.index(protection))
            for start, end, protection in self.guest.host.areas()
        ]
        return (
            areas,
            [astuple(state.command) if isinstance(state, (Asleep, Woken)) else () for state in self.states_at_switch],
        )

    def release(self):
        super().release()
        self.guest.close()
        self.guest = None

    def begin(self):
        line = super().begin()
        self.guest.host.register(MODE)
        return line

    # ---- pre-copy ----

    def check_clean(self):
        """A clean page must be protected in the kernel."""
        for page in self.clean:
            self.record.check("clean page that is protected")
            if not self.guest.host.is_protected(page):
                raise Finding(f"clean page {name(page)} is not protected in the kernel")

    def round(self):
        self.require("precopy")
        self.require_unchanging()
        self.check_clean()
        self.rounds += 1
        self.guest.host.register(MODE)
        self.to_send = self.present() - self.clean
        return f"round {self.rounds} todo {len(self.to_send)}"

    def require_sendable(self):
        self.require("precopy")
        self.link.require_up()
        if not self.to_send:
            raise Refused("NothingThere")
        self.require_unchanging(f"writeprotect {name(min(self.to_send))} {PAGE} 1")

    def read_protected(self, pages):
        """The bytes of neighbouring pages, which are protected first."""
        self.guest.host.must(f"writeprotect {name(pages[0])} {len(pages) * PAGE} 1")
        return [self.guest.host.page(page) for page in pages]

    def copies_of(self, pages):
        copies = self.read_protected(pages)
        self.to_send -= set(pages)
        self.clean |= set(pages)
        self.ever_sent |= set(pages)
        self.sent += len(pages)
        return copies

    def send(self):
        self.require_sendable()
        page = min(self.to_send)
        return self.send_page(page, self.copies_of([page])[0])

    def send_run(self, most):
        self.require_sendable()
        pages = [min(self.to_send)]
        while len(pages) < most and pages[-1] + 1 in self.to_send:
            pages.append(pages[-1] + 1)
        data = b"".join(it or bytes(PAGE) for it in self.copies_of(pages))
        return self.send_frame("run", {"page": pages[0], "count": len(pages), "bytes": data})

    def require_handler(self):
        if self.phase == "idle" or self.is_switched:
            raise Refused("Phase")

    def read(self):
        self.require_handler()
        line, event = self.read_message()
        if event:
            self.follow(event)
        return line

    def follow(self, event):
        """What an event means to the dirty log."""
        ranges = [event.left_range()]
        if event.kind == "remap":
            ranges.append((event.second, event.second + event.length))
        gone = pages_of(ranges)
        self.clean -= gone
        self.to_send -= gone

    def act(self):
        self.require_handler()
        if not self.held:
            raise Refused("NothingThere")
        self.require_unchanging(f"zeropage {name(self.held[0][0])} {PAGE} 0")
        page, is_protected = self.held.popleft()
        if not is_protected or not self.guest.host.is_protected(page):
            return self.make_zeros(page)
        self.clean.discard(page)
        self.guest.wake_by(page, f"writeprotect {name(page)} {PAGE} 0")
        return f"unprotected {name(page)}"

    # ---- the switch, and a report ----

    def switch(self):
        self.require("precopy")
        self.require_link()
        self.require_unchanging()
        self.check_clean()
        discarded, owed = self.ever_sent - self.clean, self.present() - self.clean
        self.states_at_switch = list(self.guest.states)
        self.stop_processors()
        self.guest.faults.clear()
        self.held.clear()
        return self.make_switch(discarded, owed)

    def stop_processors(self):
        """A thread that sleeps in the kernel leaves the guest."""
        for cpu, state in enumerate(self.guest.states):
            if isinstance(state, Asleep):
                self.guest.kick(cpu)
                self.guest.states[cpu] = Woken(state.command)
                self.record.tag("stopped-at-switch")

    def take_back(self, count):
        if self.phase == "idle":
            raise Refused("Phase")
        self.link.require_frame(self.link.back)
        return self.receive(self.link.back, count, self.take)

    def begin_again(self):
        super().begin_again()
        self.clean, self.to_send, self.ever_sent = set(), set(), set()
