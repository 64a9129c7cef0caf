"""The rules by which the calls of a handler are judged: what may be put where, and what is left to do once it asks for
more."""

from model.frames import copies, pages_in

from .destination import followed
from .errors import Wrong
from .pages import PAGE, meets, name, pages_of

HANDLER, STEPS = "docs/LINUX.md, For authors of a handler", "docs/PROTOCOL.md, The steps"
TABLE = f"{HANDLER}: an owed table follows UNMAP, REMOVE and REMAP"
WAKE = f"{HANDLER}: after an event call UFFDIO_WAKE for the range that is gone"
INSTALL = f"{STEPS}, install: a copy is put where its page belongs now, and those who sleep there are woken"
RESOLVE = f"{STEPS}, dact: an owed page is requested, any other missing page becomes zeros"
AGAIN = (
    f"{STEPS}, Errors of the calls: after EAGAIN read first and try again; docs/LINUX.md, The userfault object: until "
    "the call has gone on"
)
STALE = f"{STEPS}, Stale faults: after EEXIST or ENOENT call UFFDIO_WAKE of the page"
RESUME = f"{STEPS}, deliver of Resume: Recv says what is still needed, and open requests are repeated"
END = f"{STEPS}, deliver of End: it sends Done"
FRAMES = "docs/FORMATS.md, Frames"


def source(origin):
    return f"the source's {name(origin)}"


def listed(pages):
    return " ".join(map(name, sorted(pages))) or "none"


class Duties:
    """owed: the origin of each owed page, as the messages that were read leave it. given: the bytes of each copy that
    the handler got, by origin (None: zeros). to_come: the origins that the source may still send. requested: those
    asked for in this epoch. left: why a page is owed no more. refused: the last errno of a call for a page. to_wake:
    pages that an errno says to wake."""

    def __init__(self):
        self.owed, self.given, self.to_come, self.requested = {}, {}, set(), set()
        self.left, self.refused, self.to_wake = {}, {}, set()
        self.epoch, self.line = 0, 0
        self.has_ended = self.owes_done = self.owes_report = False

    # ---- what the handler gets ----

    def begin(self, epoch, owed):
        self.epoch, self.owed = epoch, {page: page for page in pages_in(owed)}
        self.to_come = set(self.owed)

    def take_copy(self, name_of_frame, fields):
        origin, data = copies(name_of_frame, fields)[0]
        self.given[origin] = data
        self.to_come.discard(origin)

    def end(self):
        self.has_ended = self.owes_done = True

    def resume(self, epoch):
        self.epoch, self.owes_report = epoch, True
        self.requested.clear()

    def follow(self, event):
        before = self.owed
        self.owed = followed(before, event)
        where = f"{event.kind.upper()} in line {self.line}"
        for page in pages_of([event.left_range()]) & set(before):
            moved = next((now for now, origin in self.owed.items() if origin == before[page]), None)
            self.left[page] = where if moved is None else f"{where} to {name(moved)}"

    # ---- calls on the descriptor ----

    def judge_put(self, call, page, data):
        """Before a page gets these bytes (None: zeros)."""
        if page not in self.owed:
            if data:
                raise Wrong(f"nothing at {name(page)}: {self.why_not(page)}", call, TABLE)
            return
        origin = self.owed[page]
        if origin not in self.given:
            raise Wrong(f"a Request of {source(origin)}, owed to {name(page)} and not sent yet", call, RESOLVE)
        if data != self.given[origin]:
            raise Wrong(f"the bytes of {source(origin)} at {name(page)}", f"{call}{self.whose(data)}", INSTALL)

    def why_not(self, page):
        """Why nothing is owed to a page."""
        return f"not owed since {self.left[page]}" if page in self.left else "not owed"

    def whose(self, data):
        """What bytes these are."""
        if not data:
            return " of zeros"
        origin = next((origin for origin, given in self.given.items() if given == data), None)
        return " of other bytes" if origin is None else f" of the bytes of {source(origin)}"

    def see_put(self, page, said):
        """What the kernel has answered."""
        if said == "ok":
            self.to_wake.discard(page)
            self.refused.pop(page, None)
            if self.owed.pop(page, None) is not None:
                self.left[page] = f"its install in line {self.line}"
            return
        self.refused[page] = said.split()[1]
        if self.refused[page] in ("EEXIST", "ENOENT"):
            self.to_wake.add(page)

    def see_wake(self, start, length):
        self.to_wake = {page for page in self.to_wake if not start <= page * PAGE < start + length}

    # ---- frames to the source ----

    def take_back(self, epoch, kind, fields):
        said = f"{kind} of epoch {epoch}"
        if epoch != self.epoch:
            raise Wrong(f"a frame of epoch {self.epoch}", said, FRAMES)
        if kind == "request":
            self.requested.add(fields["page"])
        elif kind == "done":
            self.take_done(said)
        elif kind == "recv":
            self.take_report(fields["state"], pages_in(fields["owed"]))
        else:
            raise Wrong("a Request, a Recv or a Done", said, FRAMES)

    def take_done(self, said):
        if not self.owes_done or self.owed:
            raise Wrong(f"Done once after End, where nothing is owed; owed: {listed(self.owed)}", said, END)
        self.owes_done = False

    def take_report(self, state, owed):
        wanted = ("ended" if self.has_ended else "running", set(self.owed.values()))
        if not self.owes_report or (state, owed) != wanted:
            raise Wrong(
                f"one Recv after a Resume: {wanted[0]}, owed {listed(wanted[1])}",
                f"{state}, owed {listed(owed)}",
                RESUME,
            )
        self.owes_report, self.to_come = False, owed

    # ---- once the handler asks for more ----

    def check(self, guest, is_up):
        """What should be done by now, where no event is unread."""
        for page, origin in self.owed.items():
            if origin in self.given:
                said = f"nothing is put there{self.last_errno(page)}"
                rule = AGAIN if page in self.refused else INSTALL
                raise Wrong(f"the bytes of {source(origin)} at {name(page)}", said, rule)
        if self.owes_report and is_up:
            raise Wrong("a Recv after Resume", "none was sent", RESUME)
        if self.owes_done and is_up:
            raise Wrong("Done after End", "none was sent", END)
        for cpu, waiting in guest.waiting.items():
            if waiting.is_asleep and waiting.is_read:
                self.check_sleeper(cpu, waiting.page, guest, is_up)
        for page in self.to_wake:
            raise Wrong(f"UFFDIO_WAKE of {name(page)}", f"no wake after {self.refused[page]}", STALE)

    def last_errno(self, page):
        return f" after {self.refused[page]}" if page in self.refused else ""

    def check_sleeper(self, cpu, page, guest, is_up):
        """A processor whose fault the handler has read sleeps on."""
        if page in self.owed:
            origin = self.owed[page]
            if is_up and origin not in self.requested:
                wanted = f"a Request of {source(origin)}, for cpu {cpu} at {name(page)}"
                raise Wrong(wanted, "none was sent in this epoch", RESOLVE)
            return
        why = self.left.get(page)
        did = f"it sleeps at {name(page)}{self.last_errno(page)}: {self.why_not(page)}"
        if not meets(guest.host.registered(), page * PAGE, page * PAGE + PAGE):
            raise Wrong(f"cpu {cpu} is woken", did, WAKE)
        raise Wrong(
            f"cpu {cpu} is woken", did, AGAIN if self.refused.get(page) == "EAGAIN" else WAKE if why else RESOLVE
        )
