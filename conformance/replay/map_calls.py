"""Map calls on a guest: what the kernel answers, with the choices that the model makes (docs/LINUX.md).

A call that the model refuses is made on a copy of the process, so that a kernel which does not refuse it changes
nothing here."""

from typing import NamedTuple, Optional

from .errors import Finding
from .guest import Event
from .host import refusal
from .pages import HIGH, LOW, MAX_PAGES, PAGE, PROCESS_END, cut, meets, pages_of, rounded
from .script import Dontneed, Mmap, Mremap, Munmap


class CallResult(NamedTuple):
    """A map call that was made. messages: those unread by the model's rules, in its order. value: what the call will
    return where it sleeps in the kernel. is_entered: whether it enters the transcript; what was answered by a copy
    alone does not."""

    reply: str
    messages: tuple = ()
    value: Optional[int] = None
    is_entered: bool = True


class MapCall:
    """A call of a processor, with the map before it."""

    def __init__(self, guest, cpu, command):
        self.guest, self.host, self.record = guest, guest.host, guest.record
        self.cpu, self.command = cpu, command
        self.areas, self.registered = self.host.areas(), self.host.registered()
        self.mapped = self.mapped_in(0, HIGH)

    def mapped_in(self, start, end):
        """How many pages of a range are mapped."""
        ranges = [(first, last) for first, last, _ in self.areas]
        return sum(last - first for first, last in cut(ranges, start, end)) // PAGE

    def gap(self, length):
        """The least free place, where the model maps."""
        at = LOW
        for start, end, _ in self.areas:
            if start - at >= length:
                return at
            at = end
        return at if HIGH - at >= length else None

    def unmap_of(self, start, end):
        """The messages by which a range goes."""
        return [Event("unmap", start, end)] if meets(self.registered, start, end) else []

    def reply(self, value, place=None):
        if value < 0:
            return refusal(value)
        return f"at 0x{value if place is None else place:x}" if isinstance(self.command, (Mmap, Mremap)) else "done"

    def model_only(self, reply):
        """A limit of the model's address space: the kernel is not asked."""
        self.record.tag("model-only")
        return CallResult(reply)

    def on_copy(self, command, expected, difference=None, place=None):
        """What the kernel answers on a copy. `difference` is the tag where that may be something else."""
        found = self.reply(self.guest.attempt(command), place)
        if found != expected and difference:
            self.record.tag(difference)
        return CallResult(found, is_entered=found == expected)

    def for_real(self, command, wanted, value, in_order=True):
        """Makes the call: it must return `value`, or an errno, and have these messages."""
        returned = self.guest.call(self.cpu, command, wanted, in_order)
        if returned is None:
            return CallResult(self.reply(value), tuple(wanted), value)
        found, events = returned
        if events != wanted:
            raise Finding(f"messages {events}, by the model {wanted}")
        return CallResult(self.reply(found), tuple(events))


class MmapCall(MapCall):
    def make(self):
        command = self.command
        length, place, addr = rounded(command.length), command.place, command.addr
        if command.length == 0 or place and addr % PAGE:
            return self.on_copy(command, "refused EINVAL", "refusal-order")
        if length > HIGH - LOW:
            if command.length > PROCESS_END and (not place or addr >= LOW):
                return self.on_copy(command, "refused ENOMEM")
            return self.model_only("refused ENOMEM")
        if place and addr < LOW:
            return self.model_only("refused EPERM")
        if place and addr + length > HIGH:
            return self.model_only("refused ENOMEM")
        return self.map(length)

    def map(self, length):
        command = self.command
        replaced = self.mapped_in(command.addr, command.addr + length) if command.place else 0
        if command.place == "noreplace" and replaced:
            return self.on_copy(command, "refused EEXIST")
        if self.mapped - replaced + length // PAGE > MAX_PAGES:
            return self.model_only("refused ENOMEM")
        target = command.addr if command.place else self.gap(length)
        if target is None:
            return self.model_only("refused ENOMEM")
        if not command.place:
            self.record.tag("place-requested")
        place = "fixed" if command.place == "fixed" else "noreplace"
        made = Mmap(command.length, command.protection, place, target)
        return self.for_real(made, self.unmap_of(target, target + length), target)


class MunmapCall(MapCall):
    def make(self):
        command = self.command
        end = command.addr + rounded(command.length)
        if command.addr % PAGE or not command.length:
            return self.on_copy(command, "refused EINVAL")
        if end > HIGH:
            return self.model_only("refused EINVAL") if end < PROCESS_END else self.on_copy(command, "refused EINVAL")
        return self.for_real(command, self.unmap_of(command.addr, end), 0)


class DontneedCall(MapCall):
    def make(self):
        command = self.command
        end = command.addr + rounded(command.length)
        if command.addr % PAGE:
            return self.on_copy(command, "refused EINVAL")
        if not command.length:
            return self.on_copy(command, "done")
        if end >= 1 << 64:
            # (to a kernel the sum wraps: a length that shows it)
            return self.on_copy(Dontneed(command.addr, (1 << 64) - 1), "refused EINVAL")
        if command.addr >= HIGH:
            return self.model_only("refused ENOMEM")
        return self.clear(command.addr, min(end, HIGH), end > HIGH)

    def clear(self, start, end, has_hole):
        # After HIGH there is a page of the host's own that is mapped, and nothing after that.
        made = Dontneed(start, end - start + (2 * PAGE if has_hole else 0))
        parts = cut(self.registered, start, end)
        if self.guest.settings.late and parts == [(start, end)] and self.may_stay():
            return self.clear_late(made, end, has_hole)
        value, events = self.guest.call_through(self.cpu, made)
        if (
            any(event.kind != "remove" for event in events)
            or pages_of(event[1:3] for event in events) != pages_of(parts)
        ):
            raise Finding(f"messages {events}, registered {parts}")
        whole = [Event("remove", start, end)]
        if events:
            # The kernel clears once the messages were read; here that is in this step.
            self.record.tag("cleared-at-once")
        if events and events != whole:
            self.record.tag("remove-of-each-area")
        return CallResult(self.reply(value), tuple(whole if events else ()))

    def may_stay(self):
        """Whether a call can be left asleep: no other is."""
        return not any(call.is_in_kernel() for call, _ in self.guest.events)

    def clear_late(self, made, end, has_hole):
        said = self.host.ask(f"cpu {self.cpu} {made.text()}")
        if said != "blocked":
            raise Finding(f"a dontneed of registered pages: {said}")
        self.record.tag("cleared-late")
        message = Event("remove", made.addr, end)
        return CallResult("refused ENOMEM", (message,), -12) if has_hole else CallResult("done", (message,), 0)


class MremapCall(MapCall):
    def __init__(self, guest, cpu, command):
        super().__init__(guest, cpu, command)
        self.old, self.new = rounded(command.old), rounded(command.new)
        self.start, self.end = command.addr, command.addr + self.old
        # What stays of the old range, where it moves.
        self.kept_end = self.start + min(self.old, self.new)
        self.protection = self.protection_of_range()
        self.parts = []

    def protection_of_range(self):
        """That of the one area which has the whole old range."""
        for start, end, protection in self.areas:
            if start <= self.start < end:
                return protection if self.end <= end else None
        return None

    def make(self):
        refused = self.wrong_form() or self.not_mapped() or self.too_many()
        if refused:
            return refused
        areas = [(start, end) for start, end, _ in self.host.kernel_areas()]
        self.parts = cut(areas, self.start, self.end)
        if self.command.target is None and self.new <= self.old:
            return self.shrink()
        if self.command.target is not None:
            return self.move(self.command.target)
        return self.grow_or_move()

    def wrong_form(self):
        command, target = self.command, self.command.target
        is_fixed = target is not None
        wrong = (
            command.addr % PAGE
            or not command.old
            or not command.new
            or is_fixed and (not command.may_move or target % PAGE)
        )
        if not wrong and is_fixed and (target < LOW or target + self.new > HIGH):
            if target < LOW or target + self.new < PROCESS_END:
                return self.model_only("refused EINVAL")
            wrong = True
        if wrong or is_fixed and target < self.end and self.start < target + self.new:
            return self.on_copy(command, "refused EINVAL", "refusal-order")
        return None

    def not_mapped(self):
        command = self.command
        if self.protection is not None:
            return None
        if HIGH <= command.addr < PROCESS_END:
            return self.model_only("refused EFAULT")
        difference = "mremap-to-a-size-past-the-space" if command.new > PROCESS_END else "mremap-of-several-areas"
        if self.end > PROCESS_END:
            difference = "refusal-order"
        return self.on_copy(command, "refused EFAULT", difference, command.addr if command.target is None else None)

    def too_many(self):
        target = self.command.target
        replaced = 0 if target is None else self.mapped_in(target, target + self.new)
        if self.mapped - self.old // PAGE - replaced + self.new // PAGE <= MAX_PAGES:
            return None
        if self.command.new > PROCESS_END:
            return self.on_copy(self.command, "refused ENOMEM", "mremap-to-a-size-past-the-space")
        return self.model_only("refused ENOMEM")

    def shrink(self):
        """In place, or not at all."""
        cut_off = self.unmap_of(self.start + self.new, self.end) if self.new < self.old else []
        if len(self.parts) == 1 or self.new == self.old:
            return self.for_real(self.command, cut_off, self.start)
        self.record.tag("areas")
        _, events = self.guest.call_through(self.cpu, Munmap(self.start + self.new, self.old - self.new))
        if events != cut_off:
            raise Finding(f"messages {events}, by the model {cut_off}")
        return CallResult(self.reply(self.start), tuple(events))

    def grow_or_move(self):
        grown_end = self.start + self.new
        if grown_end <= HIGH and not self.mapped_in(self.end, grown_end):
            return self.grow()
        if not self.command.may_move:
            several = "growth-of-several-areas" if len(self.parts) > 1 else None
            return self.on_copy(self.command, "refused ENOMEM", several)
        target = self.gap(self.new)
        if target is None:
            return self.model_only("refused ENOMEM")
        self.record.tag("place-requested")
        return self.move(target)

    def grow(self):
        if len(self.parts) > 1:
            self.record.tag("areas")
            self.add_behind(self.end)
            return CallResult(self.reply(self.start))
        value, events = self.guest.call_through(self.cpu, self.command)
        if events:
            raise Finding(f"messages {events} of a growth in place")
        return CallResult(self.reply(value))

    def add_behind(self, at):
        """What the kernel does not let grow: a mapping of its own, registered as the range's last page."""
        length = self.new - self.old
        value, events = self.guest.call_through(self.cpu, Mmap(length, self.protection, "noreplace", at))
        if value != at or events:
            raise Finding(f"growth by mmap: {value} {events}")
        if meets(self.registered, self.end - PAGE, self.end):
            self.host.must(f"register 0x{at:x} {length} {self.guest.mode}")

    def move(self, target):
        """The model's messages: UNMAP of the target, UNMAP of the tail, REMAP."""
        is_fixed = self.command.target is not None
        replaced = self.unmap_of(target, target + self.new) if is_fixed else []
        tail = self.unmap_of(self.kept_end, self.end) if self.new < self.old else []
        moved = []
        if meets(self.registered, self.start, self.kept_end):
            moved = [Event("remap", self.start, target, self.kept_end - self.start)]
        if len(self.parts) > 1:
            return self.move_by_pieces(target, replaced + tail, moved)
        return self.move_at_once(target, replaced + tail + moved, in_order=not (tail and moved))

    def move_at_once(self, target, wanted, in_order):
        real = Mremap(self.start, self.command.old, self.command.new, True, target)
        returned = self.guest.call(self.cpu, real, wanted, in_order)
        if returned is None:
            return CallResult(self.reply(target), tuple(wanted), target)
        value, events = returned
        if value != target:
            return CallResult(self.reply(value))
        old_place = Event("unmap", self.start, self.kept_end)
        if any(event.kind == "remap" for event in wanted):
            self.record.tag("messages-of-mremap")
            if events.count(old_place) != 1:
                raise Finding(f"messages {events}, by the model {wanted}")
            events.remove(old_place)
        if sorted(events) != sorted(wanted):
            raise Finding(f"messages {events}, by the model {wanted}")
        return CallResult(self.reply(target), tuple(wanted))

    def move_by_pieces(self, target, wanted, moved):
        """A range that is one area in the model and several in the kernel."""
        self.record.tag("areas")
        gone = []
        if self.mapped_in(target, target + self.new):
            gone += self.guest.call_through(self.cpu, Munmap(target, self.new))[1]
        if self.new < self.old:
            gone += self.guest.call_through(self.cpu, Munmap(self.kept_end, self.end - self.kept_end))[1]
        if gone != wanted:
            raise Finding(f"messages {gone}, by the model {wanted}")
        pieces = [
            piece for part in cut(self.parts, self.start, self.kept_end) for piece in self.move_piece(part, target)
        ]
        if self.new > self.old:
            self.add_behind(target + self.old)
        found = pages_of(event.left_range() for event in pieces)
        if found != pages_of(cut(self.registered, self.start, self.kept_end)):
            raise Finding(f"messages {pieces} of pieces")
        return CallResult(self.reply(target), tuple(wanted + moved))

    def move_piece(self, part, target):
        """The REMAP of one piece, if it has one."""
        start, end = part
        there = start - self.start + target
        value, events = self.guest.call_through(self.cpu, Mremap(start, end - start, end - start, True, there))
        if value != there:
            raise Finding(f"a piece of an mremap returns {value}")
        return [event for event in events if event.kind == "remap"]


KINDS = {Mmap: MmapCall, Munmap: MunmapCall, Dontneed: DontneedCall, Mremap: MremapCall}


def make(guest, cpu, command):
    """Makes a map call of a processor."""
    return KINDS[type(command)](guest, cpu, command).make()
