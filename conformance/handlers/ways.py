"""Other right handlers: in each, one thing that right.py does is done in another way that the rules allow.
conformance/handler must take them."""

import os
import select
import threading

from calls import call
from right import PAGE, Handler


class OneMessage(Handler):
    """It reads one message at a time, and acts before it reads the next."""

    ROOM = 1


class EveryUnmap(Handler):
    """It leaves out no UNMAP. (In one call at a time that does no harm.)"""

    def take_event(self, *message):
        super().take_event(*message)
        self.moved.clear()


class CopiesZeros(Handler):
    """It copies zeros where right.py calls UFFDIO_ZEROPAGE."""

    def put(self, page, data, act):
        return super().put(page, data or bytes(PAGE), act)


class WakesLater(Handler):
    """It puts a page with UFFDIO_COPY_MODE_DONTWAKE, and wakes by a call of its own."""

    def put(self, page, data, act):
        said = call("copy", hex(page * PAGE), 1, (data or bytes(PAGE)).hex())
        if said == ["refused", "EAGAIN"]:
            self.again.append(act)
        else:
            call("wake", hex(page * PAGE), PAGE)
        return said == ["ok"]


class AsksAgain(Handler):
    """It sends a Request for each fault on an owed page."""

    def take_fault(self, page):
        self.requested.discard(self.owed.get(page))
        super().take_fault(page)


class WakesMore(Handler):
    """It wakes everybody after each batch of messages, also those who must sleep again."""

    def take_messages(self, messages):
        super().take_messages(messages)
        call("wake", "0x10000", 0x100000 * PAGE - 0x10000)


class TwoThreads(Handler):
    """One thread takes the frames, and another one the messages, and what was refused with EAGAIN."""

    def run(self):
        import descriptor

        self.lock, (self.bell, self.button) = threading.Lock(), os.pipe()
        threading.Thread(target=self.take_frames, args=[descriptor], daemon=True).start()
        while True:
            if not self.again:
                ready, _, _ = select.select([descriptor.DESCRIPTOR, self.bell], [], [])
                if self.bell in ready:
                    os.read(self.bell, 1)
            with self.lock:
                self.take_messages([*self.read(self.ROOM)])

    def take_frames(self, descriptor):
        try:
            while True:
                frame = descriptor.frame()
                with self.lock:
                    self.take_frame(frame)
                os.write(self.button, b"!")
        except SystemExit:
            os._exit(0)


# By the name that --way takes.
HANDLERS = {
    "one-message": OneMessage,
    "every-unmap": EveryUnmap,
    "copies-zeros": CopiesZeros,
    "wakes-later": WakesLater,
    "asks-again": AsksAgain,
    "wakes-more": WakesMore,
    "two-threads": TwoThreads,
}
BY_DESCRIPTOR_ALONE = ("two-threads",)
# On a descriptor those whom it wakes for nothing fault again at once, so that it never waits.
BY_CALLS_ALONE = ("wakes-more",)
