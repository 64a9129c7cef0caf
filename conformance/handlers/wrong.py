"""Wrong handlers: in each, one thing that right.py does is done otherwise. conformance/handler must find each of
them."""

import sys

from calls import call
from right import FAULT, PAGE, REMAP, REMOVE, UNMAP, Handler


class ZerosForBytes(Handler):
    """A copy is put with zeros for its bytes."""

    def take_copy(self, origin, data):
        super().take_copy(origin, bytes(PAGE))


class ZeropageForOwed(Handler):
    """A fault on an owed page makes it zeros."""

    def take_fault(self, page):
        self.put(page, None, (self.take_fault, page))


class IgnoresEvents(Handler):
    """The table does not follow one kind of event; the range that is gone is woken all the same."""

    ignored = None

    def drop(self, kind, start, end):
        if kind != self.ignored:
            super().drop(kind, start, end)

    def move(self, start, target, length):
        if self.ignored != REMAP:
            super().move(start, target, length)


class IgnoresUnmap(IgnoresEvents):
    """UNMAP leaves the table as it is."""

    ignored = UNMAP


class IgnoresRemap(IgnoresEvents):
    """REMAP leaves the table as it is."""

    ignored = REMAP


class IgnoresRemove(IgnoresEvents):
    """REMOVE leaves the table as it is."""

    ignored = REMOVE


class NoWakeAfterUnmap(Handler):
    """Those who sleep on a page that is unmapped are not woken."""

    def wake_gone(self, kind, start, end):
        if kind != UNMAP:
            super().wake_gone(kind, start, end)


class ExistsIsFatal(Handler):
    """EEXIST ends the handler."""

    def wake_stale(self, page, errno):
        if errno == "EEXIST":
            sys.exit(1)
        super().wake_stale(page, errno)


class ExistsIsNotWoken(Handler):
    """No one is woken after EEXIST."""

    def wake_stale(self, page, errno):
        if errno != "EEXIST":
            super().wake_stale(page, errno)


class AgainIsDropped(Handler):
    """What is refused with EAGAIN is not tried again."""

    def take_messages(self, messages):
        self.again.clear()
        super().take_messages(messages)


class AgainIsLate(Handler):
    """What is refused with EAGAIN is tried again when the next message or frame has arrived."""

    def run(self):
        while True:
            kind, text = call("next")
            if kind == "frame":
                self.take_frame(bytes.fromhex(text))
            else:
                self.take_messages([bytes.fromhex(text), *self.read(self.ROOM)])


class FaultIsForgotten(Handler):
    """Of the faults that are read together only the last is resolved."""

    def take_messages(self, messages):
        faults = [message for message in messages if message[0] == FAULT]
        super().take_messages([message for message in messages if message[0] != FAULT or message is faults[-1]])


# By the name that --bug takes.
HANDLERS = {
    "zeros": ZerosForBytes,
    "zeropage": ZeropageForOwed,
    "unmap": IgnoresUnmap,
    "remap": IgnoresRemap,
    "remove": IgnoresRemove,
    "no-wake": NoWakeAfterUnmap,
    "eexist-fatal": ExistsIsFatal,
    "eexist-no-wake": ExistsIsNotWoken,
    "eagain": AgainIsDropped,
    "eagain-late": AgainIsLate,
    "forgotten": FaultIsForgotten,
}
# A duty of which nothing is seen but the call.
BY_CALLS_ALONE = ("eexist-no-wake",)
