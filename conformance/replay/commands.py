"""Random commands of a processor, mostly on pages that are mapped."""

from .pages import HIGH, LOW, MAX_PAGES, PAGE
from .script import Dontneed, Load, Mmap, Mremap, Munmap, Store

# The pages among which most scripts stay.
FIRST, COUNT = LOW // PAGE, 24
PROTECTIONS = ("rw",) * 8 + ("r", "none")
ODD_ADDRESSES = (
    0, PAGE, LOW - PAGE, HIGH - PAGE, HIGH - 2 * PAGE, HIGH, HIGH + PAGE, 1 << 47, (1 << 64) - PAGE, (1 << 64) - 1
)
ODD_LENGTHS = (0, 1, PAGE - 1, PAGE + 1, HIGH - LOW, HIGH, MAX_PAGES * PAGE, 1 << 46, 1 << 47, 1 << 63, (1 << 64) - 1)


class Commands:
    """pages: the pages that are mapped, with their protections, as far as the answers say. odd: the share of addresses
    and lengths that are far off."""

    def __init__(self, random, odd):
        self.random, self.odd, self.pages = random, odd, {}
        self.favoured = set()

    def page(self):
        """Mostly a mapped page, often a favoured one."""
        if not self.pages or self.random.random() < 0.06:
            return FIRST + self.random.randrange(COUNT)
        favoured = sorted(self.favoured & set(self.pages))
        return self.random.choice(favoured if favoured and self.random.random() < 0.5 else sorted(self.pages))

    def target(self):
        """Where a mapping goes: near the others, whether or not something is there."""
        if self.random.random() < 0.3:
            return self.addr()
        return (FIRST + self.random.randrange(COUNT)) * PAGE

    def addr(self):
        if self.random.random() < self.odd:
            return self.random.choice(ODD_ADDRESSES)
        return self.page() * PAGE + (1 if self.random.random() < self.odd / 2 else 0)

    def length(self):
        if self.random.random() < self.odd:
            return self.random.choice(ODD_LENGTHS)
        return self.random.choice((1, 1, 1, 2, 2, 3, 4)) * PAGE - (1 if self.random.random() < self.odd else 0)

    def access(self):
        width = (
            self.random.choice((8, 8, 8, 4, 2, 1))
            if self.random.random() > self.odd / 2
            else self.random.choice((0, 3, 16, 255))
        )
        at = (
            self.random.randrange(0, PAGE // 8) * 8
            if self.random.random() > self.odd / 2
            else self.random.randrange(PAGE)
        )
        addr = self.addr() // PAGE * PAGE + at
        if self.random.random() < 0.4:
            return Load(addr, width)
        value = self.random.choice((0, 1, self.random.getrandbits(8), self.random.getrandbits(8)))
        return Store(addr, width, value if self.random.random() > self.odd else self.random.getrandbits(64))

    def mmap(self):
        protection = self.random.choice(PROTECTIONS)
        if self.random.random() < 0.5:
            return Mmap(self.length(), protection)
        return Mmap(self.length(), protection, self.random.choice(("fixed", "fixed", "noreplace")), self.target())

    def mremap(self):
        addr, old, new = self.addr(), self.length(), self.length()
        if self.random.random() < 0.4:
            new = old
        fixed = self.target() if self.random.random() < 0.6 else None
        return Mremap(addr, old, new, self.random.random() < (0.97 if fixed is not None else 0.6), fixed)

    def opening(self):
        """The first calls of a script: blocks that may be stored to."""
        return Mmap(self.random.randrange(2, 7) * PAGE, "rw")

    def move(self):
        """A mapped range to somewhere else, as it is or longer."""
        length = self.random.choice((1, 1, 2)) * PAGE
        longer = length + self.random.choice((0, 0, 0, PAGE))
        fixed = self.target() if self.random.random() < 0.7 else None
        return Mremap(self.page() * PAGE, length, longer, True, fixed)

    def map_call(self):
        make = self.random.choice((self.mmap, self.mmap, self.mremap, self.mremap, self.munmap, self.dontneed))
        return make()

    def munmap(self):
        return Munmap(self.addr(), self.length())

    def dontneed(self):
        return Dontneed(self.addr(), self.length())

    # ---- what the answers say of the map ----

    def apply(self, command, place):
        """A map call has taken effect; place: where the mapping begins, None where that is not known."""
        if isinstance(command, (Load, Store, Dontneed)):
            return
        length = getattr(command, "length", 0)
        if isinstance(command, Munmap):
            self.remove(command.addr, length)
        elif isinstance(command, Mmap) and place is not None:
            self.put(place, length, command.protection)
        elif isinstance(command, Mremap) and place is not None:
            protection = self.pages.get(command.addr // PAGE, "rw")
            self.remove(command.addr, command.old)
            self.put(place, command.new, protection)

    def remove(self, addr, length):
        for page in range(addr // PAGE, min((addr + length + PAGE - 1) // PAGE, addr // PAGE + 64)):
            self.pages.pop(page, None)

    def put(self, addr, length, protection):
        for page in range(addr // PAGE, min((addr + length + PAGE - 1) // PAGE, addr // PAGE + 64)):
            self.pages[page] = protection
