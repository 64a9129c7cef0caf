"""Wrong replays: in each, one step of a node does the wrong thing on the kernel. A comparison must find each of them.

Each function changes the classes of a replay, for the rest of the process."""

from . import destination as destinations
from .destination import Destination
from .guest import Guest
from .host import Host
from .source import Source


def change_lines(start, change):
    """Changes each host command that begins so; None is not made, and returns `ok`."""
    old = Host.ask

    def ask(host, line):
        changed = change(line) if line.startswith(start) else line
        return "ok" if changed is None else old(host, changed)

    Host.ask = ask


def protects_nothing(source):
    pass


def sends_unprotected():
    """A page is sent without being protected."""
    change_lines("writeprotect", lambda line: None if line.endswith(" 1") else line)
    Source.check_clean = protects_nothing


def stays_protected():
    """A store's fault is answered by a wake alone."""
    change_lines("writeprotect", lambda line: "wake " + " ".join(line.split()[1:3]) if line.endswith(" 0") else line)


def change_registration(change):
    old = Host.register

    def register(host, mode):
        changed = change(mode)
        if changed:
            old(host, changed)

    Host.register = register


def source_without_missing():
    """The source registers for write-protect faults alone."""
    change_registration(lambda mode: 2 if mode == 3 else mode)


def source_without_protection():
    """The source registers for missing faults alone."""
    change_registration(lambda mode: 1)


def rounds_register_nothing():
    """New pages are never registered."""
    old_round, old_register = Source.round, Host.register

    def round_without(source):
        Host.register = lambda host, mode: None
        try:
            return old_round(source)
        finally:
            Host.register = old_register

    Source.round = round_without


def destination_registers_nothing():
    """A missing page at the destination reads as zeros."""
    change_registration(lambda mode: None if mode == 1 else mode)


def installs_at_the_origin():
    """A copy is put where its page was at the source."""
    Destination.install_copy = lambda node, page, origin, data: node.guest.host.put(origin, data)


def change_table(kind):
    old = destinations.followed
    destinations.followed = lambda owed, event: owed if event.kind == kind else old(owed, event)


def table_without_remap():
    """The owed table does not follow REMAP."""
    change_table("remap")


def table_without_remove():
    """The owed table does not follow REMOVE."""
    change_table("remove")


def table_without_unmap():
    """The owed table does not follow UNMAP."""
    change_table("unmap")


def clean_over_events():
    """The dirty log does not follow events."""
    Source.follow = lambda source, event: None
    Source.check_clean = protects_nothing


def installs_while_changing():
    """Nothing waits for an unread event."""
    Source.require_unchanging = Destination.require_unchanging = lambda node, ioctl=None: None


def wakes_nobody():
    """A copy is installed with UFFDIO_COPY_MODE_DONTWAKE."""
    old = Destination.install_copy

    def install_copy(node, page, origin, data):
        old_ask = Host.ask
        Host.ask = lambda host, line: old_ask(host, line.replace(" 0 ", " 1 ", 1) if line.startswith("copy") else line)
        try:
            old(node, page, origin, data)
        finally:
            Host.ask = old_ask

    Destination.install_copy = install_copy


def zeros_for_bytes():
    """Each copy is installed as zeros."""
    change_lines("copy", lambda line: f"zeropage {line.split()[1]} 4096 0")


def one_byte_is_wrong():
    """The last byte of each copy is another."""
    change_lines("copy", lambda line: line[:-2] + ("01" if line.endswith("00") else "00"))


def discards_nothing():
    """The destination keeps copies that the source has changed since."""
    old = Destination.discard

    def discard(node, runs):
        kept = dict(node.kept)
        old(node, runs)
        node.kept = kept

    Destination.discard = discard


def trusts_what_was_sent():
    """After a lost channel the source does not take the destination's report."""
    old = Source.take_report

    def take_report(source, state, owed):
        remaining = source.remaining
        old(source, state, owed)
        if state == "running":
            source.remaining = remaining

    Source.take_report = take_report


def end_does_not_wait():
    """End is taken before the urgent frames that it announces."""
    Destination.wait_fault = lambda node, name, fields: None


def events_wake_nobody():
    """A thread that sleeps in a range that is gone sleeps on."""
    Guest.wake_gone = lambda guest, start, end: None


FOUND_BY_REPLAYS = (
    sends_unprotected,
    stays_protected,
    source_without_missing,
    source_without_protection,
    rounds_register_nothing,
    destination_registers_nothing,
    installs_at_the_origin,
    table_without_remap,
    table_without_remove,
    table_without_unmap,
    clean_over_events,
    installs_while_changing,
    wakes_nobody,
    zeros_for_bytes,
    one_byte_is_wrong,
    discards_nothing,
    trusts_what_was_sent,
    end_does_not_wait,
    events_wake_nobody,
)
