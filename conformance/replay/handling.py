"""Judges a handler of a user: runs the destination of a script on the kernel, with a program as its handler.

The model runs the script, the source and the wires (model_run.py). Here the guest's commands are made once it runs at
the destination, and the program gets the messages of its userfaultfd and the frames from the Package on. It may be
ahead of the model, which resolves a fault or installs a copy in steps of its own; it must be no later. So a processor
that sleeps in the model may be awake here: its command is then made at its retry.
"""

from collections import deque

from model import frames

from . import map_calls
from .comparison import Result, checked, run, sweep
from .differences import kind
from .duties import AGAIN, FRAMES, RESOLVE, Duties
from .errors import Finding, NotAScript, Wrong
from .guest import has_wrong_form
from .model_run import lines_of
from .pages import HIGH, PAGE, name
from .script import Load, Store
from .settings import Record
from .tested_guest import TestedGuest, message_bytes
from .tested_program import CALLS, TestedProgram
from .world import looked_at

FLAT = "docs/PROVED.md, world: the guest sees one flat memory"
# The most calls of a handler for one message or frame, and the most times that a processor may sleep again.
MOST_CALLS, MOST_SLEEPS = 5000, 200


def number(word):
    return int(word, 0)


# The calls of a handler, with the form of their arguments.
FORMS = {
    "read": (),
    "copy": (number, number, bytes.fromhex),
    "zeropage": (number, number, number),
    "wake": (number, number),
    "send": (bytes.fromhex,),
}


def parsed(line):
    """A call and its arguments."""
    words = line.split()
    form = FORMS.get(words[0]) if words else None
    try:
        if form is None or len(words) != 1 + len(form):
            raise ValueError
        return words[0], [read(word) for read, word in zip(form, words[1:])]
    except ValueError:
        raise Wrong("a call, or `next`", f"the line {line[:60]!r}", CALLS) from None


class Handling:
    """arrivals: the copies that the destination has taken and the model has not installed, as [origin, frame, whether
    the handler has it]."""

    guest_class = TestedGuest

    def __init__(self, job):
        self.job, self.record, self.duties = job, Record(), Duties()
        self.result = Result(job.name)
        self.guest = self.program = self.line = None
        self.kept, self.arrivals, self.is_up = {}, deque(), True
        self.calls = {
            "read": self.read, "copy": self.copy, "zeropage": self.zeropage, "wake": self.wake, "send": self.send
        }
        self.words = {
            "cpu": self.issue, "retry": self.retry, "dact": self.act, "install": self.install, "break": self.break_link
        }

    # ---- a script ----

    def run(self):
        self.result.totals["scripts"] += 1
        try:
            for self.line in lines_of(self.job.program, self.job.settings.cpus, self.job.data):
                self.take(self.line)
            self.line = None
            if self.guest:
                self.finish()
        except Wrong as wrong:
            self.differ(*wrong.args)
        except Finding as found:
            self.differ("what the model or docs/LINUX.md says", f"finding: {found}", "the kernel, or the host")
        except NotAScript as wrong:
            self.result.differing.append((f"line {wrong}: not a script line",))
        finally:
            self.close()
        self.result.totals["scripts with something wrong"] += bool(self.result.differing)
        self.result.checks.update(self.record.checks)
        return self.result

    def close(self):
        for part in (self.guest, self.program):
            if part:
                part.close()

    def differ(self, expected, did, rule):
        where = (self.line.number, self.line.text) if self.line else ("end", "")
        self.result.differing.append((*where, f"expected {expected}", did, rule))

    def take(self, line):
        self.record.tags, self.duties.line = [], line.number
        if line.frame:
            self.take_frame(*line.frame)
        elif self.guest and not line.answer.startswith("refused"):
            self.words.get(line.step.word, lambda _: None)(line)
        self.result.totals["lines"] += bool(self.guest)

    def compare(self, line, reply):
        """The reply of a command, where the run says one."""
        if line.reply is None:
            return
        self.record.check("replies of the guest compared")
        cpu = line.step.arguments[0]
        if kind(self.record.tags, f"cpu {cpu} {line.reply}", f"cpu {cpu} {reply}") == "unexpected":
            raise Wrong(line.reply, reply, FLAT)

    # ---- frames ----

    def take_frame(self, epoch, kind_of_frame, fields):
        if kind_of_frame == "package":
            self.begin(epoch, fields)
        elif not self.guest:
            self.take_before_run(kind_of_frame, fields)
        elif kind_of_frame in ("page", "zero"):
            self.arrivals.append([fields["page"], (epoch, kind_of_frame, fields), False])
        elif kind_of_frame == "end":
            self.duties.end()
            self.give_frame(epoch, kind_of_frame, fields)
        elif kind_of_frame == "resume":
            self.give_arrivals()
            self.is_up = True
            self.duties.resume(epoch)
            self.give_frame(epoch, kind_of_frame, fields)

    def take_before_run(self, kind_of_frame, fields):
        if kind_of_frame in ("page", "zero", "run"):
            self.kept.update(frames.copies(kind_of_frame, fields))
        elif kind_of_frame == "discard":
            for page in frames.pages_in(fields["pages"]):
                self.kept.pop(page, None)
        elif kind_of_frame == "resume":
            self.kept.clear()

    def begin(self, epoch, fields):
        self.guest = self.guest_class(self.job.settings, self.record, self.give_arrival, self.give_message)
        self.guest.begin(fields["areas"], fields["commands"], self.kept)
        self.result.totals["scripts in which the handler ran"] += 1
        self.start_program()
        self.duties.begin(epoch, fields["owed"])
        self.give_frame(epoch, "package", fields)

    def start_program(self):
        self.program = TestedProgram(self.job.implementation, self.job.settings)
        self.serve()

    def give_frame(self, epoch, kind_of_frame, fields):
        self.record.check(f"frames given: {kind_of_frame}")
        self.turn("frame " + frames.encode(epoch, kind_of_frame, fields).hex())

    def give_arrival(self):
        """The oldest copy that the handler does not have, if there is one."""
        for arrival in [arrival for arrival in self.arrivals if not arrival[2]][:1]:
            self.give(arrival)

    def give_arrivals(self):
        for arrival in self.arrivals:
            self.give(arrival)

    def give(self, arrival):
        origin, frame, is_given = arrival
        arrival[2] = True
        if is_given:
            return
        if origin not in self.duties.to_come:
            # The handler was ahead when it reported what it needs: its own source would not have sent this page again.
            self.record.check("frames left out: sent again to the model alone")
            return
        self.duties.take_copy(*frame[1:])
        self.give_frame(*frame)

    # ---- the program under test ----

    def turn(self, text):
        """The program gets something, and makes its calls until it asks for more."""
        self.program.answer(text)
        self.serve()
        if not self.guest.has_unread_event():
            self.duties.check(self.guest, self.is_up)

    def serve(self):
        for _ in range(MOST_CALLS):
            line = self.program.line()
            if line == "next":
                return
            call, arguments = parsed(line)
            self.program.answer(self.calls[call](*arguments))
        raise Wrong("`next`", f"{MOST_CALLS} calls for one message or frame", AGAIN)

    def give_message(self):
        text = self.read()
        if text == "none":
            raise Finding("the kernel has no message, and something waits for its reader")
        self.turn(text)

    def give_messages(self):
        """All that wait. A processor that is woken on a page which is still owed sleeps again."""
        for _ in self.guest.unread():
            self.give_message()
        for _ in range(MOST_SLEEPS):
            if all(waiting.page in self.duties.owed for waiting in self.guest.unread()):
                return
            self.give_message()
        raise Wrong("faults that are resolved", "processors are woken, and sleep at once again", RESOLVE)

    def read(self):
        words, event = self.guest.read()
        if words is None:
            return "none"
        if event:
            self.duties.follow(event)
        return "message " + message_bytes(words).hex()

    def copy(self, addr, mode, data):
        pages = [data[at : at + PAGE] for at in range(0, len(data), PAGE)]
        return self.put("copy", addr, len(data), mode, [page if any(page) else None for page in pages])

    def zeropage(self, addr, length, mode):
        return self.put("zeropage", addr, length, mode, [None] * (length // PAGE))

    def put(self, call, addr, length, mode, pages):
        """Page by page, as a kernel does: it stops at the first page that is refused."""
        if addr % PAGE or length % PAGE or not length or addr + length > HIGH or mode > 1:
            raise Wrong("an ioctl that a kernel takes", f"{call} {addr:#x}, {length} bytes, mode {mode}: EINVAL", CALLS)
        for page, data in enumerate(pages, addr // PAGE):
            self.duties.judge_put(f"{call} {name(page)}", page, data)
            said = self.guest.put(page, data, mode)
            self.record.check(f"{call} of the handler: {said.removeprefix('refused ')}")
            self.duties.see_put(page, said)
            if said != "ok":
                return said if page == addr // PAGE else "refused EAGAIN"
        return "ok"

    def wake(self, addr, length):
        said = self.guest.wake(addr, length)
        self.record.check(f"wake of the handler: {said.removeprefix('refused ')}")
        if said != "ok":
            raise Wrong("an ioctl that a kernel takes", f"wake {addr:#x}, {length} bytes: {said}", CALLS)
        self.duties.see_wake(addr, length)
        return said

    def send(self, data):
        if not self.is_up:
            return "refused EPIPE"
        found, _, fault = frames.read(data)
        if fault or len(found) != 1:
            raise Wrong("one frame of version 2", fault or f"{len(found)} frames", FRAMES)
        self.record.check(f"frames sent: {found[0][1]}")
        self.duties.take_back(*found[0])
        return "ok"

    # ---- steps at the destination ----

    def issue(self, line):
        cpu, command = line.step.arguments
        if isinstance(command, (Load, Store)):
            self.access(cpu, command, line)
        else:
            self.compare(line, map_calls.make(self.guest, cpu, command).reply)

    def retry(self, line):
        cpu = line.step.arguments[0]
        self.access(cpu, self.guest.waiting[cpu].command, line)

    def access(self, cpu, command, line):
        if line.reply is None:
            self.sleep(cpu, command)
        elif has_wrong_form(command) or command.addr >= HIGH:
            self.guest.waiting.pop(cpu, None)  # (the kernel is not asked)
        else:
            self.compare(line, self.answered(cpu, command))

    def sleep(self, cpu, command):
        """An access that sleeps in the model. Where its page is present here it is made later."""
        waiting = self.guest.waiting.get(cpu)
        if waiting and waiting.is_asleep:
            return
        if self.guest.host.is_present(command.addr // PAGE):
            self.guest.wait(cpu, command)
        elif self.guest.make(cpu, command) != "blocked":
            raise Finding(f"{command.text()} does not sleep on a page that is missing")

    def answered(self, cpu, command):
        """The reply to an access that the model answers: it may sleep here until the handler has read its message, and
        no longer."""
        for _ in range(MOST_SLEEPS):
            self.resolve(cpu)
            said = self.guest.make(cpu, command)
            if said != "blocked":
                return said
        raise Wrong("a fault that is resolved", f"cpu {cpu} is woken, and sleeps at once again", RESOLVE)

    def resolve(self, cpu):
        while cpu in self.guest.waiting and self.guest.waiting[cpu].is_asleep:
            waiting = self.guest.waiting[cpu]
            if waiting.is_read:
                raise Wrong(f"cpu {cpu} is woken", f"it sleeps at {name(waiting.page)}", RESOLVE)
            self.give_message()

    def act(self, line):
        """The model resolves a fault at this page, so the handler gets the messages of it."""
        page = number(line.answer.split()[-1]) // PAGE
        for _ in self.guest.unread():
            if any(waiting.page == page for waiting in self.guest.unread()):
                self.give_message()

    def install(self, line):
        self.give(self.arrivals.popleft())

    def break_link(self, line):
        self.is_up = False

    # ---- the end ----

    def finish(self):
        """The handler gets all that is left; then the memory must be the model's."""
        self.give_arrivals()
        self.give_messages()
        self.program.end()
        self.compare_memory()

    def compare_memory(self):
        host, memory = self.guest.host, {}
        present, owed = host.present(), self.duties.owed
        areas = host.areas()
        for start, end, protection in areas:
            for page in looked_at(start // PAGE, end // PAGE, present | set(owed)):
                if page not in owed:
                    is_read = page in present and protection != "none"
                    memory[page] = (protection, host.page(page) if is_read else None)
        self.result.totals["pages compared at the end"] += len(memory)
        words = [*self.job.program, "run", "--transcript", "--cpus", str(self.job.settings.cpus)]
        wrong = checked(self.job.program, run(words, self.job.data)[0].splitlines() + sweep(memory, areas))
        if wrong:
            raise Wrong(wrong[0], f"memory at the end: {wrong[1]}", FLAT)
