"""Two nodes and the channel between them: makes the steps of a script, and writes a line for each as `postmig run`
does."""

from . import script
from .destination import Destination, followed
from .errors import Finding, Refused
from .guest import Asleep, Guest, Idle, InCall
from .pages import PAGE, meets, name
from .settings import Record
from .source import Source
from .wires import Link


class World:
    source_class, destination_class, guest_class = Source, Destination, Guest

    def __init__(self, settings):
        self.settings, self.record, self.link = settings, Record(), Link()
        self.transcript = []
        self.is_late = False
        self.source = self.source_class(self, self.guest_class)
        self.destination = self.destination_class(self, self.guest_class)
        self.words = self.steps_by_word()

    def __enter__(self):
        return self

    def __exit__(self, *_):
        for node in (self.source, self.destination):
            if node.guest:
                node.guest.close()

    def steps_by_word(self):
        source, destination = self.source, self.destination
        return {
            "cpu": self.issue,
            "retry": self.retry,
            "start": source.begin,
            "round": source.round,
            "send": source.send,
            "sendrun": source.send_run,
            "sread": source.read,
            "sact": source.act,
            "switch": source.switch,
            "push": source.push,
            "upush": source.push_urgent,
            "serve": source.serve,
            "end": source.end,
            "back": source.take_back,
            "deliver": destination.deliver,
            "udeliver": destination.deliver_urgent,
            "dread": destination.read,
            "dact": destination.act,
            "install": destination.install,
            "break": self.break_link,
            "notice": self.notice,
            "resume": self.resume,
            "progress": self.progress,
        }

    def step(self, step):
        """Makes a step: its line."""
        self.record.tags = []
        try:
            line = self.words[step.word](*step.arguments)
        except Refused as refusal:
            return f"refused {refusal}"
        for node in (self.source, self.destination):
            if node.guest:
                node.guest.check_states()
        if "cleared-late" in self.record.tags:
            self.is_late = True
        return line

    # ---- commands ----

    def running(self):
        """The node where the guest runs."""
        return self.destination if self.destination.has_run else self.source

    def states(self):
        if self.destination.has_run:
            return self.destination.guest.states
        return self.source.states_at_switch or self.source.guest.states

    def require_run(self):
        if self.source.is_switched and not self.destination.has_run:
            raise Refused("Phase")

    def issue(self, cpu, command):
        if cpu >= self.settings.cpus:
            raise Refused("NoCpu")
        if not isinstance(self.states()[cpu], Idle):
            raise Refused("Busy")
        self.require_run()
        return self.running().perform(cpu, command)

    def retry(self, cpu):
        if cpu >= self.settings.cpus:
            raise Refused("NoCpu")
        state = self.states()[cpu]
        if isinstance(state, (Idle, InCall)):
            raise Refused("NotAsleep")
        if isinstance(state, Asleep):
            raise Refused("NotWoken")
        self.require_run()
        self.running().guest.states[cpu] = Idle()
        return self.running().perform(cpu, state.command)

    def enter(self, cpu, command, reply):
        self.transcript.append((cpu, command, reply))

    # ---- a channel that breaks ----

    def break_link(self):
        if self.source.phase in ("idle", "released"):
            raise Refused("Phase")
        self.link.require_up()
        self.link.clear()
        self.link.is_up = False
        return "broken"

    def notice(self, side):
        node = self.source if side == "source" else self.destination
        if self.source.phase in ("idle", "released") or node.phase == "paused":
            raise Refused("Phase")
        if self.link.is_up:
            raise Refused("NotBroken")
        return node.pause()

    def resume(self):
        source = self.source
        if source.phase != "paused" or self.destination.phase != "paused":
            raise Refused("Phase")
        if self.link.is_up:
            raise Refused("NotBroken")
        self.link.is_up = True
        source.begin_epoch()
        source.transmit("resume", {})
        return f"resumed epoch {source.epoch}"

    # ---- how far it is ----

    def phase(self):
        if self.source.phase == "released":
            return "complete"
        if self.destination.has_run:
            return "postcopy"
        if self.source.is_switched:
            return "switching"
        return "idle" if self.source.phase == "idle" else "precopy"

    def progress(self):
        source, destination = self.source, self.destination
        left = len(destination.owed) if destination.has_run else source.last_owed if source.is_switched else 0
        faults = source.faults_read + destination.faults_read
        return (
            f"progress phase {self.phase()} rounds {source.rounds} sent {source.sent} left {left} "
            f"installed {destination.installed} dropped {destination.dropped} faults {faults}"
        )

    # ---- what the guest sees at the end ----

    def memory(self):
        """For each mapped page its protection and its bytes (None: zeros), by the kernel's memory and the owed
        table."""
        node = self.running()
        if not node.guest:
            return {}
        node.guest.drain()
        host, settled = node.guest.host, self.settled()
        present = host.present()
        self.check_owed(settled, present, host.registered())
        seen = {}
        for start, end, protection in host.areas():
            for page in looked_at(start // PAGE, end // PAGE, present | set(settled)):
                seen[page] = (protection, self.bytes_of(page, protection, present, settled))
        return seen

    def settled(self):
        """The owed table once every unread event is read."""
        if not self.destination.has_run:
            return {}
        owed = dict(self.destination.owed)
        for _, event in self.destination.guest.events:
            owed = followed(owed, event)
        return owed

    def check_owed(self, settled, present, registered):
        for page in settled:
            self.record.check("owed page that is registered and missing")
            if page in present or not meets(registered, page * PAGE, page * PAGE + PAGE):
                raise Finding(f"owed page {name(page)} is present, or not registered")

    def bytes_of(self, page, protection, present, settled):
        if page in present and protection != "none":
            return self.running().guest.host.page(page)
        return self.source.guest.host.page(settled[page]) if page in settled else None


def looked_at(first, end, interesting):
    """All pages of an area; of a large one its ends and those that have bytes."""
    pages = range(first, end)
    if len(pages) < 256:
        return pages
    return sorted({first, end - 1} | (interesting & set(pages)))


def replay(data, world):
    """Makes the steps of a script: (number, line, answer, tags) for each."""
    for number, line, step in script.steps(data):
        if world.settings.trace:
            print(line)
        yield number, line, world.step(step), world.record.tags
