"""The source and the destination of a migration, as docs/PROTOCOL.md has them.

A step returns its line, as docs/SCRIPT.md has it, or raises Refused and has changed nothing. A class with wires or a
host overrides the calls under that head. Without them what a node sends is lost, and its memory is the bytes of its
present pages.
"""

from collections import deque

from .frames import PAGE, copies, page_frame, pages_in, runs_of, told


class Refused(Exception):
    """A step does not belong here: the argument is the refusal's name. It has changed nothing."""


def address(page):
    return f"{PAGE * page:#x}"


class Destination:
    # The frames that a phase takes.
    PLACES = {
        "idle": {"advise"},
        "advised": {"page", "zero", "run", "discard"},
        "discarding": {"package"},
        "running": {"page", "zero", "end"},
        "paused": {"resume"},
        "ended": set(),
    }

    def __init__(self, cpus):
        self.cpus, self.phase, self.epoch = cpus, "idle", 0
        self.has_run, self.has_ended = False, False
        self.kept = {}  # the newest copy of each page, before it runs
        self.memory = {}  # the bytes that it has put
        self.owed = {}  # the origin of each owed page, by where it lies now
        self.arrivals, self.requested = deque(), []
        self.urgent_taken, self.installed, self.dropped = 0, 0, 0

    # ---- what a host overrides ----

    def transmit(self, name, fields):
        """A frame goes back."""

    def begin_run(self, areas, commands):
        """The guest runs here from now on."""

    def put(self, page, data):
        self.memory[page] = data

    # ---- frames ----

    def is_bad_package(self, areas, owed, commands):
        mapped, owed = pages_in(areas), pages_in(owed)
        return (
            len(commands) != self.cpus
            or not owed <= mapped
            or any(page in owed or page not in mapped for page in self.kept)
        )

    def wait_fault(self, name, fields):
        """Why a frame must wait. Only End may need to."""
        if name == "end" and self.arrivals:
            return "InstallFirst"
        return "UrgentFirst" if name == "end" and fields["urgent"] > self.urgent_taken else None

    def fault(self, epoch, name, fields):
        """The first reason against a frame of the wire, or None."""
        if name not in self.PLACES[self.phase]:
            return "OutOfPlace"
        if name == "end" and self.owed and not self.arrivals and fields["urgent"] <= self.urgent_taken:
            return "OutOfPlace"
        if name == "resume" and epoch <= self.epoch or name not in ("advise", "resume") and epoch != self.epoch:
            return "StaleEpoch"
        if (
            name == "package" and self.is_bad_package(**fields)
            or name == "end" and fields["urgent"] < self.urgent_taken
        ):
            return "BadFrame"
        return self.wait_fault(name, fields)

    def take(self, epoch, name, fields):
        reason = self.fault(epoch, name, fields)
        if reason:
            raise Refused(reason)
        if name in ("page", "zero", "run"):
            self.take_copies(copies(name, fields))
        elif name == "advise":
            self.phase, self.epoch, self.urgent_taken = "advised", epoch, 0
        elif name == "discard":
            self.discard(fields["pages"])
        elif name == "package":
            self.take_package(**fields)
        elif name == "resume":
            self.take_resume(epoch)
        else:
            self.has_ended, self.phase = True, "ended"
            self.transmit("done", {})
        return f"took {told(name, fields)}"

    def take_copies(self, found):
        if self.has_run:
            self.arrivals.extend(found)
        else:
            self.kept.update(found)

    def discard(self, runs):
        gone = pages_in(runs) if self.kept else ()
        self.kept = {page: data for page, data in self.kept.items() if page not in gone}
        self.phase = "discarding"

    def take_package(self, areas, owed, commands):
        self.begin_run(areas, commands)
        for page in sorted(self.kept):
            self.put(page, self.kept[page])
        self.kept, self.owed = {}, {page: page for page in pages_in(owed)}
        self.has_run, self.phase = True, "running"

    def take_resume(self, epoch):
        """It reports what it needs, and repeats its requests."""
        self.epoch, self.urgent_taken = epoch, 0
        state = "ended" if self.has_ended else "running" if self.has_run else "notrun"
        self.transmit("recv", {"state": state, "owed": runs_of(self.owed.values()) if state == "running" else []})
        if state == "running":
            for page in self.requested:
                self.transmit("request", {"page": page})
        self.kept = {}
        self.phase = "advised" if state == "notrun" else state

    def take_urgent(self, epoch, name, fields):
        """The same for a frame of the urgent wire."""
        if self.phase != "running" or name not in ("page", "zero"):
            raise Refused("OutOfPlace")
        if epoch != self.epoch:
            raise Refused("StaleEpoch")
        self.arrivals.extend(copies(name, fields))
        self.urgent_taken += 1
        return f"took {told(name, fields)}"

    # ---- its own steps ----

    def require_run(self):
        if not self.has_run:
            raise Refused("Phase")

    def request(self, page, origin):
        """Asks for an owed page that was faulted on, once."""
        if origin not in self.requested:
            self.requested.append(origin)
            if self.phase == "running":
                self.transmit("request", {"page": origin})
        return f"requested {address(origin)} for {address(page)}"

    def install(self):
        """The first copy that came is put where its page belongs now."""
        self.require_run()
        if not self.arrivals:
            raise Refused("NothingThere")
        origin, data = self.arrivals.popleft()
        page = next((page for page, other in self.owed.items() if other == origin), None)
        if page is None:
            self.dropped += 1
            return f"dropped {address(origin)}"
        self.put_arrival(page, origin, data)
        del self.owed[page]
        self.installed += 1
        if origin in self.requested:
            self.requested.remove(origin)
        return f"installed {address(page)} from {address(origin)}"

    def put_arrival(self, page, origin, data):
        self.put(page, data)

    def pause(self):
        self.phase = "paused"
        return "paused dest"


class Source:
    def __init__(self, memory=()):
        self.phase, self.epoch, self.is_switched = "idle", 0, False
        self.memory = dict(memory)  # the bytes of each present page, None for zeros
        self.remaining, self.requests, self.last_owed = set(), deque(), 0
        self.has_sent_end, self.urgent_sent, self.sent = False, 0, 0

    # ---- what a host overrides ----

    def transmit(self, name, fields, urgent=False):
        """A frame goes to the destination, perhaps on the urgent wire."""

    def require_link(self):
        """A step that sends is refused while the link is down."""

    def present(self):
        return set(self.memory)

    def is_present(self, page):
        return page in self.memory

    def bytes_of(self, page):
        return self.memory[page]

    def package(self):
        """The areas, and the command for which each processor waits."""
        return [], []

    # ---- steps ----

    def require(self, *phases):
        if self.phase not in phases:
            raise Refused("Phase")

    def begin(self):
        self.require("idle")
        self.phase = "precopy"
        self.begin_epoch()
        self.transmit("advise", {})
        return f"started epoch {self.epoch}"

    def begin_epoch(self):
        self.epoch += 1
        self.has_sent_end, self.urgent_sent = False, 0

    def switch(self):
        self.require("precopy")
        self.require_link()
        return self.make_switch([], self.present())

    def make_switch(self, discarded, owed):
        self.is_switched, self.phase = True, "stopped"
        self.hand_over(discarded, owed)
        return f"switched discard {len(discarded)} owed {len(owed)}"

    def hand_over(self, discarded, owed):
        areas, commands = self.package()
        self.transmit("discard", {"pages": runs_of(discarded)})
        self.transmit("package", {"areas": areas, "owed": runs_of(owed), "commands": commands})
        self.last_owed, self.remaining = len(owed), set(owed)

    def push(self, page, epoch=None, urgent=False):
        self.require("stopped")
        self.require_link()
        if epoch is not None and epoch != self.epoch:
            raise Refused("StaleEpoch")
        if not self.is_present(page):
            raise Refused("PageNotSendable")
        if page not in self.remaining:
            raise Refused("NotRemaining")
        self.remaining.discard(page)
        self.sent += 1
        self.urgent_sent += urgent
        return self.send_page(page, self.bytes_of(page), urgent)

    def send_page(self, page, data, urgent=False):
        return self.send_frame(*page_frame(page, data), urgent)

    def send_frame(self, name, fields, urgent=False):
        self.transmit(name, fields, urgent)
        return f"sent {told(name, fields)}"

    def push_urgent(self, page, epoch=None):
        return self.push(page, epoch, urgent=True)

    def serve(self):
        self.require("stopped")
        self.require_link()
        if not self.requests:
            raise Refused("NothingThere")
        return f"asked {address(self.requests.popleft())}"

    def end(self):
        self.require("stopped")
        if self.has_sent_end:
            raise Refused("Phase")
        self.require_link()
        if self.remaining:
            raise Refused("PagesLeft")
        self.has_sent_end = True
        self.transmit("end", {"urgent": self.urgent_sent})
        return "end sent"

    def pause(self):
        self.require("precopy", "stopped")
        self.phase = "paused"
        return "paused source"

    # ---- the wire back ----

    def fault(self, epoch, name):
        """The first reason against a frame that comes back, or None."""
        stopped = self.phase == "stopped"
        places = {"request": stopped, "done": stopped and self.has_sent_end, "recv": self.phase == "paused"}
        if not places.get(name, False):
            return "OutOfPlace"
        return "StaleEpoch" if epoch != self.epoch else None

    def take(self, epoch, name, fields):
        reason = self.fault(epoch, name)
        if reason:
            raise Refused(reason)
        if name == "request":
            self.requests.append(fields["page"])
        elif name == "recv":
            self.take_report(fields["state"], pages_in(fields["owed"]))
        else:
            self.release()
        return f"took {told(name, fields)}"

    def is_bad_report(self, state, owed):
        if state == "notrun":
            return bool(owed)
        return not self.is_switched or (bool(owed) if state == "ended" else not owed <= self.present())

    def take_report(self, state, owed):
        """The source trusts the report, and not what it has sent."""
        if self.is_bad_report(state, owed):
            raise Refused("BadOwed")
        self.requests.clear()
        if state == "ended":
            self.release()
        elif state == "running":
            self.remaining, self.phase = owed, "stopped"
        elif self.is_switched:
            self.phase = "stopped"
            self.hand_over([], self.present())
        else:
            self.begin_again()

    def begin_again(self):
        """Pre-copy begins again: the destination has discarded what it had."""
        self.phase = "precopy"

    def release(self):
        self.phase, self.memory, self.remaining = "released", {}, set()
        self.requests.clear()
