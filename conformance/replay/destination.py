"""The destination of a migration on a host: the node of bench/model, with a guest below it and wires beside it."""

from model import nodes

from .errors import Finding, Refused
from .guest import Guest, Idle, Woken
from .nodes import Node
from .pages import PAGE, PROTECTIONS, name
from .script import Load, Mmap, Store

# As the source's, without the thread's number.
FEATURES = 0x4D
MODE = 1


def followed(owed, event):
    """The owed table after an event: pairs of a page, as it lies now, and its origin at the source."""
    first, last = (end // PAGE for end in event.left_range())
    if event.kind != "remap":
        return {page: origin for page, origin in owed.items() if not first <= page < last}
    there = event.second // PAGE
    moved = {page - first + there: origin for page, origin in owed.items() if first <= page < last}
    rest = {
        page: origin
        for page, origin in owed.items()
        if not first <= page < last and not there <= page < there + last - first
    }
    return {**rest, **moved}


class Destination(Node, nodes.Destination):
    def __init__(self, world, guest_class=Guest):
        nodes.Destination.__init__(self, world.settings.cpus)
        Node.__init__(self, world)
        self.guest_class = guest_class

    def transmit(self, name, fields):
        if self.link.is_up:
            self.link.back.put(self.epoch, name, fields)

    # ---- frames ----

    def deliver(self, count):
        if self.world.source.phase == "idle":
            raise Refused("Phase")
        wire = self.link.forward
        self.link.require_frame(wire)
        reason = self.wait_fault(*wire.first()[1:]) if wire.completes(count) else None
        if reason:
            raise Refused(reason)
        return self.receive(wire, count, self.take)

    def deliver_urgent(self, count):
        self.require_run()
        self.link.require_frame(self.link.urgent)
        return self.receive(self.link.urgent, count, self.take_urgent)

    def begin_run(self, areas, commands):
        self.guest = self.guest_class(self.world.settings, self.record, FEATURES, MODE)
        for first, pages, protection in areas:
            start = first * PAGE
            value, events = self.guest.call_through(0, Mmap(pages * PAGE, PROTECTIONS[protection], "noreplace", start))
            if value != start or events:
                raise Finding(f"an area of the package: {value} {events}")
        self.guest.host.register(MODE)
        self.guest.states = [
            Woken((Load, Store)[len(command) - 2](*command)) if command else Idle() for command in commands
        ]

    def put(self, page, data):
        self.guest.host.put(page, data)

    # ---- the handler ----

    def read(self):
        self.require_run()
        line, event = self.read_message()
        if event:
            self.follow(event)
        return line

    def follow(self, event):
        self.owed = followed(self.owed, event)

    def act(self):
        self.require_run()
        if not self.held:
            raise Refused("NothingThere")
        self.require_unchanging(f"zeropage {name(self.held[0][0])} {PAGE} 0")
        page, _ = self.held.popleft()
        if page not in self.owed:
            return self.make_zeros(page)
        if self.guest.host.is_present(page):
            raise Finding(f"owed page {name(page)} is present")
        return self.request(page, self.owed[page])

    def install(self):
        if self.arrivals:
            self.require_unchanging(f"copy {name(self.arrivals[0][0])} 0 {'00' * PAGE}")
        return super().install()

    def put_arrival(self, page, origin, data):
        cpus = self.guest.sleepers_of(page)
        self.install_copy(page, origin, data)
        self.guest.see_woken(cpus)

    def install_copy(self, page, origin, data):
        self.put(page, data)
