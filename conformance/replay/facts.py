"""Single things that a kernel does, as docs/LINUX.md states them: short sessions with one host.

single-calls has a block for each: its sentence, and the commands of the host protocol with the answers that show it."""

import time

from .host import Host
from .pages import PAGE
from .settings import FOLDER, Record

PROCESSORS = 3


def read_facts():
    """(sentence, [(command, answer)]) of each block. @N stands for the bytes N of a whole page."""
    facts = []
    for block in (FOLDER / "single-calls").read_text().split("\n\n")[1:]:
        sentence, *lines = block.strip().splitlines()
        facts.append((sentence.removeprefix("# "), [tuple(line.split(" -> ")) for line in lines]))
    return facts


def spelled(text):
    """With the bytes of a page in hexadecimal."""
    return " ".join(word[1:].zfill(2) * PAGE if word.startswith("@") else word for word in text.split())


def wrong_answer(settings, commands):
    """The first command that is answered otherwise, with its answer; None where all are as they should."""
    host = Host(settings, Record())
    try:
        for command, answer in commands:
            found = host.ask(spelled(command))
            if found != spelled(answer):
                return f"{command} -> {found[:100]}"
    finally:
        host.close()
    return None


def messages_of(host, count, patience):
    """Up to `count` messages, those that come within some seconds: a thread queues its second one once its first was
    read."""
    found, end = [], time.monotonic() + patience
    while len(found) < count and time.monotonic() < end:
        said = host.ask("read")
        if said == "none":
            time.sleep(0.001)
        else:
            found.append(said)
    return found


def two_blocks_grow(settings):
    """Two processors grow a block each by mremap, which names no address: the second block goes where the first one
    was, and UNMAP of that place is read after the REMAP to it."""
    host = Host(settings, Record())
    try:
        host.must("open 0x4d")
        base = int(host.ask(f"cpu 0 mmap {98 * PAGE} r").split()[1])
        second, first = base + PAGE, base + 34 * PAGE
        for addr, pages in (first, 64), (second, 32):
            host.ask(f"cpu 0 mmap {pages * PAGE} rw fixed 0x{addr:x}")
            host.must(f"register 0x{addr:x} {pages * PAGE} 1")
        host.ask(f"cpu 0 mremap 0x{first:x} {64 * PAGE} {128 * PAGE} maymove")
        host.ask(f"cpu 1 mremap 0x{second:x} {32 * PAGE} {64 * PAGE} maymove")
        messages = messages_of(host, 4, settings.patience)
        host.ask("await 0")
        moved = host.ask("await 1")
    finally:
        host.close()
    old_place, new_place = f"unmap 0x{first:x} 0x{first + 64 * PAGE:x}", f"remap 0x{second:x} 0x{first:x} {32 * PAGE}"
    if moved != f"ret {first}":
        return f"the second mremap: {moved}, and the first block was at 0x{first:x}"
    if old_place not in messages or new_place not in messages or messages.index(old_place) < messages.index(new_place):
        return f"messages in this order: {messages}"
    return None


def all_facts():
    """(sentence, what is wrong with it under some settings, if anything)."""
    for sentence, commands in read_facts():
        yield sentence, lambda settings, commands=commands: wrong_answer(settings, commands)
    yield " ".join(two_blocks_grow.__doc__.split()), two_blocks_grow
