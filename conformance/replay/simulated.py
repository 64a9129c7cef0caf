"""A host without a kernel: the memory of a destination and its userfault object, as Linux does what conformance/handler
asks of a host.

It has the missing mode alone, and one map call at a time. A map call of a form that the model refuses is refused as the
model does."""

from .pages import HIGH, LOW, MAX_PAGES, PAGE, PROCESS_END, rounded
from .script import Dontneed, Load, Mmap, Mremap, Munmap

EAGAIN, ENOMEM, EFAULT, EEXIST, EINVAL, ENOENT = -11, -12, -14, -17, -22, -2


class Sleeper:
    """An access that sleeps. is_unread: its message waits."""

    def __init__(self, command):
        self.command, self.is_unread = command, True


class Memory:
    """By page: protections of what is mapped, modes of what is registered, bytes of what is present. events: the unread
    messages of the call that waits, each with the range that is cleared once it is read."""

    def __init__(self):
        self.protections, self.modes, self.bytes = {}, {}, {}
        self.events = []

    def pages(self, start, length):
        return range(start // PAGE, min(start + rounded(length), HIGH) // PAGE)

    def is_registered(self, pages):
        return any(page in self.modes for page in pages)

    def areas(self):
        """(first page, page after the last, protection, mode) of each run of pages that are alike."""
        found = []
        for page in sorted(self.protections):
            kind = self.protections[page], self.modes.get(page, 0)
            if found and found[-1][1] == page and found[-1][2:] == kind:
                found[-1] = (found[-1][0], page + 1, *kind)
            else:
                found.append((page, page + 1, *kind))
        return found

    def forget(self, pages):
        for page in pages:
            for part in (self.protections, self.modes, self.bytes):
                part.pop(page, None)

    def note(self, kind, *numbers, cleared=()):
        self.events.append((kind, numbers, cleared))

    # ---- map calls: what they return ----

    def unmap(self, pages):
        """Pages go, with a message where one was registered."""
        if self.is_registered(pages):
            self.note("unmap", pages.start * PAGE, pages.stop * PAGE)
        self.forget(pages)

    def mmap(self, call):
        pages = self.pages(call.addr, call.length)
        if not call.length or call.addr % PAGE:
            return EINVAL
        if call.addr + rounded(call.length) > HIGH:
            return ENOMEM
        if call.place == "noreplace" and any(page in self.protections for page in pages):
            return EEXIST
        self.unmap(pages)
        self.protections.update(dict.fromkeys(pages, call.protection))
        return call.addr

    def munmap(self, call):
        if call.addr % PAGE or not call.length or call.addr + call.length > PROCESS_END:
            return EINVAL
        self.unmap(self.pages(call.addr, call.length))
        return 0

    def dontneed(self, call):
        end = call.addr + rounded(call.length)
        if call.addr % PAGE or end >= 1 << 64:
            return EINVAL
        pages = self.pages(call.addr, call.length)
        for first, last, _, mode in self.areas():
            part = range(max(first, pages.start), min(last, pages.stop))
            if part and mode:
                self.note("remove", part.start * PAGE, part.stop * PAGE, cleared=part)
            for page in part if not mode else ():
                self.bytes.pop(page, None)
        return ENOMEM if end > HIGH or any(page not in self.protections for page in pages) else 0

    def mremap(self, call):
        wrong = self.mremap_fault(call)
        if wrong:
            return wrong
        old, new = self.pages(call.addr, call.old), self.pages(call.addr, call.new)
        if call.target is not None:
            return self.move(call, old)
        if len(new) > len(old):
            self.grow(range(old.stop, new.stop), old.stop - 1)
        elif len(new) < len(old):
            self.unmap(range(new.stop, old.stop))
        return call.addr

    def mremap_fault(self, call):
        old, target = self.pages(call.addr, call.old), call.target
        if call.addr % PAGE or not call.old or not call.new:
            return EINVAL
        if (
            target is not None
            and (not call.may_move or target % PAGE or target < LOW or target + rounded(call.new) > HIGH)
        ):
            return EINVAL
        if target is not None and target < call.addr + rounded(call.old) and call.addr < target + rounded(call.new):
            return EINVAL
        kinds = {self.protections.get(page) for page in old}
        if call.addr + rounded(call.old) > HIGH or len(kinds) != 1 or None in kinds:
            return EFAULT
        if target is None and rounded(call.new) > rounded(call.old):
            return self.growth_fault(call, old)
        return ENOMEM if rounded(call.new) > MAX_PAGES * PAGE else 0

    def growth_fault(self, call, old):
        behind = range(old.stop, (call.addr + rounded(call.new)) // PAGE) if call.new <= HIGH else (HIGH // PAGE,)
        return ENOMEM if any(page in self.protections or page >= HIGH // PAGE for page in behind) else 0

    def grow(self, pages, last):
        """Pages that are like the one before them."""
        self.protections.update(dict.fromkeys(pages, self.protections[last]))
        if last in self.modes:
            self.modes.update(dict.fromkeys(pages, self.modes[last]))

    def move(self, call, old):
        """The messages: UNMAP of the target, REMAP, UNMAP of the tail that is cut off, UNMAP of the old place."""
        there = self.pages(call.target, call.new)
        kept, is_watched = old[: len(there)], self.is_registered(old)
        self.unmap(there)
        for part in (self.protections, self.modes, self.bytes):
            part.update({page - kept.start + there.start: part[page] for page in kept if page in part})
        if len(there) > len(kept):
            self.grow(there[len(kept) :], there.start + len(kept) - 1)
        self.forget(old)
        if is_watched:
            self.note("remap", kept.start * PAGE, call.target, len(kept) * PAGE)
            for gone in (old[len(kept) :], kept):
                if gone:
                    self.note("unmap", gone.start * PAGE, gone.stop * PAGE)
        return call.target

    def call(self, call):
        return {Mmap: self.mmap, Munmap: self.munmap, Mremap: self.mremap, Dontneed: self.dontneed}[type(call)](call)


class SimulatedHost:
    """sleepers: by processor. calling: the processor whose map call waits, and what it will return."""

    def __init__(self, processors):
        self.memory, self.processors = Memory(), processors
        self.sleepers, self.order, self.replies, self.calling = {}, [], {}, None

    # ---- processors ----

    def access(self, cpu, command):
        """The reply to a load or store; None where it sleeps."""
        memory, page = self.memory, command.addr // PAGE
        protection = memory.protections.get(page)
        if protection is None:
            return "segv unmapped"
        if protection == "none" or protection == "r" and not isinstance(command, Load):
            return "segv protected"
        if page not in memory.bytes and page in memory.modes:
            self.sleepers[cpu] = Sleeper(command)
            self.order.append(cpu)
            return None
        at = command.addr % PAGE
        if isinstance(command, Load):
            return f"value 0x{int.from_bytes(memory.bytes.get(page, bytes(PAGE))[at : at + command.width], 'little'):x}"
        return "done"

    def store(self, command):
        data = self.memory.bytes.setdefault(command.addr // PAGE, bytearray(PAGE))
        data[command.addr % PAGE : command.addr % PAGE + command.width] = command.value.to_bytes(
            command.width, "little"
        )

    def make(self, cpu, command):
        if hasattr(command, "width"):
            said = self.access(cpu, command)
            if said == "done":
                self.store(command)
            return said or "blocked"
        returned = self.memory.call(command)
        if not self.memory.events:
            return f"ret {returned}"
        self.calling = cpu, returned
        return "blocked"

    def wake(self, start, end):
        """Who sleeps there runs, up to where its access takes effect, or sleeps again."""
        for cpu in [cpu for cpu, it in self.sleepers.items() if start <= it.command.addr < end]:
            command = self.sleepers.pop(cpu).command
            self.order = [other for other in self.order if other != cpu]
            said = self.access(cpu, command)
            if said:
                self.replies[cpu] = said if said.startswith("segv") else "woken"

    def wait_for(self, cpu):
        """What a processor says that was blocked."""
        if cpu in self.replies:
            return self.replies.pop(cpu)
        if self.calling and self.calling[0] == cpu and not self.memory.events:
            returned, self.calling = self.calling[1], None
            return f"ret {returned}"
        return "blocked" if cpu in self.sleepers or self.calling and self.calling[0] == cpu else "idle"

    # ---- the userfault object ----

    def read(self):
        for cpu in self.order:
            sleeper = self.sleepers[cpu]
            if sleeper.is_unread:
                sleeper.is_unread = False
                is_store = not isinstance(sleeper.command, Load)
                return f"fault 0x{sleeper.command.addr // PAGE * PAGE:x} {int(is_store)} {cpu + 1}"
        if not self.memory.events:
            return "none"
        kind, numbers, cleared = self.memory.events.pop(0)
        for page in cleared:
            self.memory.bytes.pop(page, None)
        first, second, *length = numbers
        return " ".join([kind, f"0x{first:x}", f"0x{second:x}", *map(str, length)])

    def put(self, addr, data, mode):
        """One page of UFFDIO_COPY or UFFDIO_ZEROPAGE: 0 or minus an errno."""
        memory, page = self.memory, addr // PAGE
        if memory.events:
            return EAGAIN
        if page not in memory.modes:
            return ENOENT
        if page in memory.bytes:
            return EEXIST
        memory.bytes[page] = bytearray(data)
        if not mode & 1:
            self.wake(addr, addr + PAGE)
        return 0

    def register(self, start, length, mode):
        pages = [page for page in self.memory.pages(start, length) if page in self.memory.protections]
        self.memory.modes.update(dict.fromkeys(pages, mode))
        return 0 if pages else EINVAL

    # ---- what it says of the map ----

    def areas(self, with_modes):
        for first, last, protection, mode in self.memory.areas():
            yield f"0x{first * PAGE:x}-0x{last * PAGE:x}:{protection}:{mode if with_modes else 0}"

    def page(self, addr):
        data = self.memory.bytes.get(addr // PAGE)
        return "absent" if data is None else data.hex() if any(data) else "zero"
