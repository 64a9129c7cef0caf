"""Two traces, each the steps of one node in its own order, become one script of the whole world.

A trace has a line `ORDER => ANSWER` for each step that its node has made, in the words of docs/SCRIPT.md, as
postmig_node_trace_take gives them. Lines that begin with # are comments; these count:

    # cpus N             the first line: the processors of the guest
    # epoch N            at the destination, between one `deliver => took resume` and the next: the epoch of that Resume
    # sum sent N SUM     of the bytes of the next frame without pages that was sent in epoch N, or taken
    # sum taken N SUM
    # sum page ADDR SUM  of the bytes of a page: those that were sent last, or at the destination put last
    # slice K of N       the lines from here on are those of a slice's node; its section may come in several parts
    # anew               the lines of this section that came before are those of a node that is no more
    # stopped NS         of a slice: when the guest's last thread had left its memory,
    # switched NS        and when the slice switched after that
    # package NS         when the slice had taken its Package,
    # runs NS            and when the guest ran after that, by one clock for all slices of a side

A SUM has 16 hexadecimal digits; how it is made is the driver's, at both sides alike.

Slices are merged one by one: each is a world. What a driver owes to all together is in the moments.

What an order must keep:

- the steps of each node, as they are in its trace;
- a frame is taken after it was sent, and the frames of a wire in the order in which they were sent, within an epoch;
- an epoch ends with a `break`, after all that either node has taken in it, and before the first `notice` of its end;
- `resume` follows once both nodes have noticed.

A destination may have taken the place of one that has not run: then its trace begins with `notice dest` and a Resume.
In place of those that are gone the script has a destination that took each Resume which one of them answered, and
nothing else, since a Resume makes destinations that have not run alike. That is refused once the source has switched:
one of those may have run the guest.

A frame that was sent and not taken is lost by the break. Laws say that such orders are runs of a world, with the same
results at both nodes (docs/PROTOCOL.md, Two nodes are a world); that what is made here is such an order is tested
(bench/compare/merge.py). Which Resume of the source a destination has taken follows from the frames, and where two
would fit, from the comment `# epoch N`, or else it is the earliest.
"""

import copy
import itertools
import os
import random
import re
import subprocess
import sys

SOURCE, DEST = "source", "destination"
# What each node's steps are called, and those that need the channel.
ORDERS = {
    SOURCE: {
        "cpu", "retry", "start", "round", "send", "sendrun", "sread", "sact", "switch", "push", "upush", "serve", "end",
        "back", "notice source", "resume",
    },
    DEST: {"cpu", "retry", "deliver", "udeliver", "dread", "dact", "install", "notice dest"},
}
LINKED = {"send", "sendrun", "switch", "push", "upush", "serve", "end", "back", "deliver", "udeliver"}
# Lines of comments at the top of a script.
HEAD = 2
# A frame whose count the trace of its sender does not tell.
ANY = " *"
NOT_RUN = "recv notrun 0"
# The lines that a destination which is gone makes between two epochs of the source in which it has answered a Resume.
OF_GONE = (
    (0, "notice dest", "paused dest", "notice dest => paused dest"),
    (0, "deliver", "took resume", "deliver => took resume"),
)
# Answers of which a part is read here.
READ = {
    "start": re.compile(r"started epoch \d{1,10}$"),
    "resume": re.compile(r"resumed epoch \d{1,10}$"),
    "switch": re.compile(r"switched discard \d+ owed \d+$"),
    "dact": re.compile(r"(requested 0x[0-9a-f]+ for|zeroed|woke|forgot) 0x[0-9a-f]+$"),
}
SAID = re.compile(r"# (cpus|epoch) (\d{1,10})$")
SLICE = re.compile(r"# slice (\d{1,3}) of (\d{1,3})$")
MOMENT = re.compile(r"# (stopped|switched|package|runs) (\d{1,20})$")
SUM = re.compile(r"# sum (sent|taken|page) (\d{1,10}|0x[0-9a-f]{1,8}) ([0-9a-f]{16})$")
# Frames that have no pages, by the first words that a step says of them.
NO_PAGES = {"advise", "discard", "package", "end", "resume", "recv", "request", "done"}
DIFFERS = re.compile(r"-:(\d+): (expected .*|not a line of a test)")


class Unreadable(Exception):
    """A file that is not a trace."""


class NoOrder(Exception):
    """No order of both traces is a run: the text names the lines."""


class Trace:
    """The steps of one node: for each the number of its line, the name of its order, its answer, and the whole line."""

    def __init__(self, name, side, text):
        """text: a whole file, or the lines of one section, each with its number."""
        self.name, self.side, self.cpus, self.steps, self.epochs, self.moments = name, side, None, [], {}, {}
        self.sums = {"sent": {}, "taken": {}, "page": {}}
        orders, steps, most, resumes = ORDERS[side], self.steps, -1, 0
        lines = list(enumerate(text.split("\n"), 1)) if isinstance(text, str) else text
        self.first = lines[0][0] if lines else 1
        for number, line in lines:
            order, arrow, answer = line.partition(" => ")
            if not arrow or line[0] == "#":
                self.read_comment(number, line, resumes)
                continue
            kind = order.split(" ", 1)[0]
            if kind == "notice":
                kind = order
            if kind not in orders or not answer:
                raise Unreadable(f"{name}:{number}: not a step of a {side}: {line}")
            if answer.startswith("refused "):
                raise Unreadable(f"{name}:{number}: a refused step is not a line of a trace: {line}")
            if kind in ("cpu", "retry"):
                most = max(most, self.processor(number, order))
            elif kind in READ and not READ[kind].match(answer):
                raise Unreadable(f"{name}:{number}: not an answer to `{order}`: {line}")
            resumes += answer == "took resume"
            steps.append((number, kind, answer, line))
        self.least_cpus = most + 1

    def processor(self, number, order):
        words = order.split(" ")
        if len(words) < 2 or not words[1].isdecimal() or len(words[1]) > 3:
            raise Unreadable(f"{self.name}:{number}: not a line of a trace: {order}")
        return int(words[1])

    def read_comment(self, number, line, resumes):
        if line.strip() and line[0] != "#":
            raise Unreadable(f"{self.name}:{number}: not a line `ORDER => ANSWER`: {line}")
        said, summed, moment = SAID.match(line), SUM.match(line), MOMENT.match(line)
        if moment:
            self.moments[moment[1]] = int(moment[2])
        if summed and summed[1] == "page":
            self.sums["page"][int(summed[2], 16)] = summed[3]
        elif summed:
            self.sums[summed[1]].setdefault(int(summed[2]), []).append(summed[3])
        if said and said[1] == "epoch":
            self.epochs[resumes] = int(said[2])
        elif said and number == self.first:
            self.cpus = int(said[2])

    def at(self, index):
        """Where a step is, and what it says."""
        number, _, _, line = self.steps[index]
        return f"{place(self.name, number)}: {line}"

    def after(self, gone):
        """This destination's, after those that are gone: they have answered a Resume in each of these epochs of the
        source."""
        trace = copy.copy(self)
        trace.steps = [*(step for _ in gone for step in OF_GONE), *self.steps]
        trace.epochs = {count: epoch.number for count, epoch in enumerate(gone, 1)}
        trace.epochs.update((len(gone) + count, number) for count, number in self.epochs.items() if count)
        return trace


def place(name, number):
    return f"{name}:{number}" if number else f"a destination before {name}"


def sections(name, text):
    """The lines of each slice, each with its number; of a guest in one slice all lines."""
    lines, count = [], 1
    found = {0: lines}
    for number, line in enumerate(text.split("\n"), 1):
        said = SLICE.match(line) if line[:8] == "# slice " else None
        if said:
            count, lines = int(said[2]), found.setdefault(int(said[1]), [])
        elif line == "# anew":
            lines.clear()
        else:
            lines.append((number, line))
    lacking = [slice for slice in range(count) if not found.get(slice)]
    if lacking or len(found) > count:
        raise Unreadable(f"{name}: {count} slices, and no section of slice {lacking[0] if lacking else max(found)}")
    return [found[slice] for slice in range(count)]


def read(name, side):
    """The traces of its slices."""
    try:
        with open(name, encoding="utf-8", newline="\n") as file:
            return [Trace(name, side, lines) for lines in sections(name, file.read())]
    except (OSError, UnicodeDecodeError) as error:
        raise Unreadable(f"{name}: {getattr(error, 'strerror', None) or error}") from None


class NoJudge(Exception):
    """There is no proved program of these sources."""


class Epoch:
    """What a node has sent and taken from one `start` or Resume to the next: for each wire the frames, in order, each
    with the index of its step. `end` is after the last step that needs the channel."""

    def __init__(self, begin, number=None):
        self.begin, self.end, self.number, self.notice = begin, begin, number, None
        self.sent = {"main": [], "urgent": [], "back": []}
        self.taken = {"main": [], "urgent": [], "back": []}


def epochs_of_source(trace):
    """The first begins with the first line: before `start` nothing is sent."""
    epochs, has_switched = [Epoch(0)], False
    for index, (_, kind, answer, _) in enumerate(trace.steps):
        if kind == "resume":
            epochs.append(Epoch(index))
        epoch = epochs[-1]
        main = epoch.sent["main"]
        if kind in ("start", "resume"):
            epoch.number = int(answer.split(" ")[-1])
            main.append(("advise" if kind == "start" else "resume", index))
        elif kind in ("send", "sendrun", "push"):
            main.append((answer[5:], index))
        elif kind == "upush":
            epoch.sent["urgent"].append((answer[5:], index))
        elif kind == "end":
            main.append(("end", index))
        elif kind == "switch":
            discard, owed = answer.removeprefix("switched discard ").split(" owed ")
            main += [(f"discard {discard}", index), (f"package owed {owed}", index)]
            has_switched = True
        elif kind == "back":
            epoch.taken["back"].append((answer[5:], index))
            if answer.startswith("took recv notrun") and has_switched:
                main += [("discard" + ANY, index), ("package owed" + ANY, index)]
        elif kind == "notice source":
            epoch.notice = index
        if kind in LINKED or kind in ("start", "resume"):
            epoch.end = index + 1
    return epochs


WAITS = re.compile(r"cpu (\d+) (?:load|store) 0x([0-9a-f]+) .* => cpu \d+ asleep$")
WAKES = re.compile(r"(?:unprotected|zeroed|woke|forgot|installed) 0x([0-9a-f]+)")
EVENT = re.compile(r"read (?:remove|unmap|remap) 0x([0-9a-f]+) 0x([0-9a-f]+)")
PAGE_BYTES = 4096
ACTS = {"sact", "dact", "install"}


def never_retried(trace):
    """The first step of a trace that has woken a processor which makes its access never again, or, where that step is
    the read of an event, not before the next fault is resolved or copy installed; as a text, or None. No step of either
    node needs that it does: its thread sleeps on."""
    asleep, woken, by_event = {}, {}, set()
    for index, (_, kind, answer, line) in enumerate(trace.steps):
        if by_event and kind in ACTS:
            cpu = min(by_event)
            return (
                f"{trace.at(woken[cpu])}: processor {cpu} is woken, and not retried before line {trace.steps[index][0]}"
            )
        waits, wakes, event = WAITS.match(line), WAKES.match(answer), EVENT.match(answer)
        if waits:
            asleep[waits[1]] = int(waits[2], 16) // PAGE_BYTES
        elif kind == "retry":
            cpu = line.split(" ")[1]
            woken.pop(cpu, None)
            by_event.discard(cpu)
            if not answer.endswith(" asleep"):
                asleep.pop(cpu, None)
        elif wakes or event:
            first = int((wakes or event)[1], 16) // PAGE_BYTES
            last = first if wakes else int(event[2], 16) // PAGE_BYTES - 1
            if event and answer.startswith("read remap"):
                last = first + int(answer.split(" ")[4]) // PAGE_BYTES - 1
            now = {cpu: index for cpu, page in asleep.items() if first <= page <= last and cpu not in woken}
            woken.update(now)
            by_event.update(now if event else ())
    cpu, index = min(woken.items(), key=lambda one: one[1], default=(None, None))
    return None if cpu is None else f"{trace.at(index)}: processor {cpu} is woken, and never retried"


INSTALLED = re.compile(r"installed 0x([0-9a-f]+) from 0x([0-9a-f]+)$")


class Sums:
    """The sums of both sides, compared. differs: the first frame or page with other bytes than were sent, as a text, or
    None. frames, pages: how many have the same."""

    def __init__(self, source, dest):
        self.frames = self.pages = 0
        self.differs = self.frame_of(source, dest) or self.frame_of(dest, source) or self.page_of(source, dest)

    def frame_of(self, sender, taker):
        taken = [(epoch, place, its) for epoch, sums in taker.sums["taken"].items() for place, its in enumerate(sums)]
        answers = [(index, answer.split(" ")) for index, (_, _, answer, _) in enumerate(taker.steps)]
        steps = [index for index, words in answers if words[0] == "took" and words[1] in NO_PAGES]
        if not taken or not sender.sums["sent"]:
            return None
        if len(taken) != len(steps):
            return f"{taker.name}: it has sums of {len(taken)} frames, and {len(steps)} were taken"
        for index, (epoch, place, its) in zip(steps, taken):
            if sender.sums["sent"].get(epoch, ())[place:place + 1] != [its]:
                return f"{taker.at(index)}: the bytes of this frame are not those that were sent"
            self.frames += 1
        return None

    def page_of(self, source, dest):
        sent, put = source.sums["page"], dest.sums["page"]
        if not sent or not put:
            return None
        installs = [(INSTALLED.match(step[2]), index) for index, step in enumerate(dest.steps) if step[1] == "install"]
        lines = {int(found[1], 16): (int(found[2], 16), index) for found, index in installs if found}
        for page in sorted({*put, *lines}):
            origin, index = lines.get(page, (page, None))
            if page not in put or put[page] != sent.get(origin):
                where = dest.at(index) if index is not None else f"{dest.name}: page 0x{page:x}, from before the switch"
                return f"{where}: the bytes that were put are not those that were sent last"
            self.pages += 1
        return None


class Requests:
    """What the destination sends back: a page is requested once, and all that are not installed once more after a
    Resume."""

    def __init__(self):
        self.pages, self.state, self.is_paused = {}, "notrun", False

    def frames(self, kind, answer):
        """Those that a step sends."""
        words = answer.split(" ")
        if kind == "dact" and words[0] == "requested":
            is_new = words[1] not in self.pages
            self.pages[words[1]] = True
            return [f"request {words[1]}"] if is_new and self.state == "running" and not self.is_paused else []
        if kind == "install" and words[0] == "installed":
            self.pages.pop(words[-1], None)
        elif kind == "notice dest":
            self.is_paused = True
        elif answer.startswith("took package"):
            self.state = "running"
        elif answer == "took end":
            self.state = "ended"
            return ["done"]
        elif answer == "took resume":
            self.is_paused = False
            return [f"recv {self.state}{ANY}", *(f"request {page}" for page in self.pages if self.state == "running")]
        return []


def epochs_of_destination(trace):
    """Each begins with the taking of its Resume, but the first."""
    epochs, requests = [Epoch(0, trace.epochs.get(0))], Requests()
    for index, (_, kind, answer, _) in enumerate(trace.steps):
        if answer == "took resume":
            epochs.append(Epoch(index, trace.epochs.get(len(epochs))))
        epoch = epochs[-1]
        if kind in ("deliver", "udeliver"):
            epoch.taken["main" if kind == "deliver" else "urgent"].append((answer[5:], index))
            epoch.end = index + 1
        elif kind == "notice dest":
            epoch.notice = index
        if kind in ("dact", "install", "notice dest", "deliver"):
            epoch.sent["back"] += ((frame, index) for frame in requests.frames(kind, answer))
    return epochs


# WHICH EPOCHS OF BOTH ARE THE SAME ONE


def is_frame(sent, taken):
    return sent == taken or (sent.endswith(ANY) and taken.startswith(sent[:-1]))


def first_difference(sent, taken):
    """The first frame that was taken and was not the next of its wire, by its place; None if there is none."""
    for place, frame in enumerate(taken):
        if place == len(sent) or not is_frame(sent[place][0], frame[0]):
            return place
    return None


def has_report(epoch):
    return any(frame.startswith("recv ") for frame, _ in epoch.taken["back"])


def may_be_one(own, other):
    """Whether these epochs of the source and of the destination may be one, by their numbers and the kinds of their
    frames."""
    if other.number is not None and own.number is not None and other.number != own.number:
        return False
    is_more = len(other.taken["main"]) + len(other.taken["urgent"]) > 1
    return has_report(own) or not is_more


def are_one(own, other):
    return may_be_one(own, other) and all(
        first_difference(sender.sent[wire], taker.taken[wire]) is None
        for wire, sender, taker in (("main", own, other), ("urgent", own, other), ("back", other, own)))


def pair(own, others, fits):
    """For each epoch of the destination but the first, the place of that of the source: the earliest that fit, or None.
    Each epoch in which the source has taken a report has one."""
    must = [has_report(epoch) for epoch in own]
    known = {}
    sys.setrecursionlimit(max(sys.getrecursionlimit(), 4 * len(others) + 1000))  # (one call for each epoch)

    def rest(place, at):
        """Of the destination's epochs from `place` on, with those of the source from `at` on."""
        if place == len(others):
            return None if any(must[at:]) else ()
        if (place, at) not in known:
            known[place, at] = None
            for x in range(at, len(own)):
                more = rest(place + 1, x + 1) if fits(own[x], others[place]) else None
                if more is not None:
                    known[place, at] = (x, *more)
                    break
                if must[x]:
                    break
        return known[place, at]

    return rest(1, 1)


# ORDERS


class Merge:
    """Both traces, with what each step of either waits for."""

    def __init__(self, source, dest):
        self.source, self.dest = source, dest
        self.own, self.others = epochs_of_source(source), epochs_of_destination(dest)
        # A step waits for one of the other trace (by its index), and for a break (by its number).
        self.source_waits, self.dest_waits = {}, {}
        self.breaks_of_source, self.breaks_of_dest = {}, {}
        # A break waits until this number of steps of each has been made.
        self.breaks = []
        self.join()

    def join(self):
        for fits in (are_one, may_be_one):
            paired = pair(self.own, self.others, fits)
            if paired is None:
                paired = self.pair_newcomer(fits)
            if paired is not None:
                break
        else:
            self.fail_to_pair()
        place_of = {0: 0, **{x: place for place, x in enumerate(paired, 1)}}
        for x, own in enumerate(self.own):
            if x in place_of:
                self.join_frames(own, self.others[place_of[x]])
        self.join_breaks(place_of)

    def is_newcomer(self):
        """Whether the destination begins with the notice of a break, and then takes a Resume."""
        return [step[1:3] for step in self.dest.steps[:2]] == [step[1:3] for step in OF_GONE]

    def pair_newcomer(self, fits):
        """The pairs, with lines for the destinations whose place this one has taken before the switch; None if it has
        taken none's."""
        switch = next(
            (index for index, step in enumerate(self.source.steps) if step[1] == "switch"), len(self.source.steps)
        )
        reports = [epoch for epoch in self.own if has_report(epoch)] if self.is_newcomer() else []
        gone = itertools.takewhile(
            lambda epoch: [frame for frame, _ in epoch.taken["back"]] == [NOT_RUN] and epoch.begin < switch, reports
        )
        for count, _ in enumerate(gone, 1):
            dest = self.dest.after(reports[:count])
            others = epochs_of_destination(dest)
            paired = pair(self.own, others, fits)
            if paired is not None and self.own[paired[count]].begin < switch:
                self.dest, self.others = dest, others
                return paired
        return None

    def fail_to_pair(self):
        """The first Resume for which the source has no epoch, or the first report for which the destination has
        none."""
        resumes, reports = len(self.others) - 1, [epoch for epoch in self.own if has_report(epoch)]
        if resumes > len(self.own) - 1:
            raise NoOrder(
                f"{self.dest.at(self.others[len(self.own)].begin)}: the source has resumed {len(self.own) - 1} times "
                f"({self.source.name})"
            )
        if resumes < len(reports):
            index = next(index for frame, index in reports[resumes].taken["back"] if frame.startswith("recv "))
            why = (
                "; it can have taken no other one's place: one that has run answered, or the source had switched"
                if self.is_newcomer()
                else ""
            )
            raise NoOrder(
                f"{self.source.at(index)}: the destination has taken {resumes} times a Resume ({self.dest.name}){why}"
            )
        last = self.others[-1]
        raise NoOrder(f"{self.dest.at(last.begin)}: no epoch of the source is that of this Resume"
                      f"{'' if last.number is None else f', {last.number}'} ({self.source.name})")

    def join_frames(self, own, other):
        for wire, sender, sends, taker, takes, waits in (
                ("main", self.source, own, self.dest, other, self.dest_waits),
                ("urgent", self.source, own, self.dest, other, self.dest_waits),
                ("back", self.dest, other, self.source, own, self.source_waits)):
            sent, taken = sends.sent[wire], takes.taken[wire]
            place = first_difference(sent, taken)
            if place is not None:
                self.fail_to_take(sender, sent, taker, taken[place][1], place)
            waits.update((index, sent[place][1]) for place, (_, index) in enumerate(taken))

    def fail_to_take(self, sender, sent, taker, index, place):
        if place < len(sent):
            frame, by = sent[place]
            raise NoOrder(
                f"{taker.at(index)}: the next frame of this wire is {frame.removesuffix(ANY)}, of {sender.at(by)}"
            )
        last = f"; the last was sent by {sender.at(sent[-1][1])}" if sent else ""
        raise NoOrder(
            f"{taker.at(index)}: the {sender.side} has sent no more frames on this wire in this epoch "
            f"({sender.name}){last}"
        )

    def join_breaks(self, place_of):
        """One break after each epoch but the last, and after that too if either has noticed one."""
        last = len(self.own) - 1
        for x, own in enumerate(self.own):
            other = self.others[place_of[x]] if x in place_of else None
            is_over = x < last or own.notice is not None or (other and other.notice is not None)
            if not is_over:
                break
            self.check_notice(self.source, own)
            self.breaks.append([own.end, other.end if other else 0])
            if own.notice is not None:
                self.breaks_of_source[own.notice] = x
            if other:
                self.end_epoch(own, other, x, x < last)
            if x < last:
                self.breaks_of_source[self.own[x + 1].begin] = x

    def end_epoch(self, own, other, x, is_resumed):
        self.check_notice(self.dest, other)
        if other.notice is None and is_resumed:
            raise NoOrder(
                f"{self.source.at(self.own[x + 1].begin)}: the destination has not noticed the end of the epoch before "
                f"({self.dest.name})"
            )
        if other.notice is None:
            return
        released = [index for frame, index in own.taken["back"] if frame == "done" or frame.startswith("recv ended")]
        if released:
            raise NoOrder(
                f"{self.dest.at(other.notice)}: the migration is complete by {self.source.at(released[0])}, and no "
                "break follows it"
            )
        self.breaks_of_dest[other.notice] = x
        if is_resumed:
            self.source_waits[self.own[x + 1].begin] = other.notice

    def check_notice(self, trace, epoch):
        if epoch.notice is not None and epoch.end > epoch.notice:
            raise NoOrder(
                f"{trace.at(epoch.end - 1)}: the {trace.side} has noticed a break before, at line "
                f"{trace.steps[epoch.notice][0]}"
            )

    def order(self, choose):
        """Yields (trace, index) for each step, and (None, 0) for a break. choose: which of several may come next, by 0,
        1, and 2 of a break."""
        own, others = len(self.source.steps), len(self.dest.steps)
        i = j = broken = 0
        source_waits, dest_waits = self.source_waits.get, self.dest_waits.get
        breaks_of_source, breaks_of_dest, breaks = self.breaks_of_source.get, self.breaks_of_dest.get, self.breaks
        while True:
            ready = []
            if j < others and dest_waits(j, -1) < i and breaks_of_dest(j, -1) < broken:
                ready.append(0)
            if i < own and source_waits(i, -1) < j and breaks_of_source(i, -1) < broken:
                ready.append(1)
            if broken < len(breaks) and breaks[broken][0] <= i and breaks[broken][1] <= j:
                ready.append(2)
            if not ready:
                break
            which = choose(ready)
            if which == 0:
                yield self.dest, j
                j += 1
            elif which == 1:
                yield self.source, i
                i += 1
            else:
                yield None, 0
                broken += 1
        if i < own or j < others:
            self.fail_to_order(i, j)

    def fail_to_order(self, i, j):
        """Each of the two next steps waits for one after the other."""
        source = self.source.at(i) if i < len(self.source.steps) else None
        dest = self.dest.at(j) if j < len(self.dest.steps) else None
        if source and dest:
            raise NoOrder(f"{source}\n{dest}: each of these two can only be made after the other")
        raise NoOrder(f"{source or dest}: nothing can be made that it waits for")


def first_ready(ready):
    """The destination's steps as early as they may be, and a break as late."""
    return ready[0]


def at_random(seed):
    """Any of them; for a while one side is preferred."""
    draw = random.Random(seed)
    state = [0, 0]

    def choose(ready):
        if len(ready) == 1:
            return ready[0]
        if state[0] == 0:
            state[:] = draw.randrange(1, 40), draw.randrange(4)
        state[0] -= 1
        return state[1] if state[1] in ready else draw.choice(ready)

    return choose


def processors(source, dest, given):
    """The guest's, as both traces say."""
    said = {trace.cpus for trace in (source, dest) if trace.cpus is not None}
    if len(said) > 1:
        raise NoOrder(f"{source.name}: {source.cpus} processors, {dest.name}: {dest.cpus}")
    return given or (said.pop() if said else max(2, source.least_cpus, dest.least_cpus))


class Script:
    """The merged lines, and the line of a trace from which each comes: (its name, its number), or None."""

    def __init__(self, source, dest, seed=None, cpus=None):
        merge, self.sums = Merge(source, dest), Sums(source, dest)
        self.traces = (merge.source, merge.dest)
        self.cpus = str(processors(source, dest, cpus))
        self.lines = [f"# cpus {self.cpus}", f"# {source.name} and {dest.name}, merged"]
        self.origins = [None] * HEAD
        for trace, index in merge.order(first_ready if seed is None else at_random(seed)):
            if trace is None:
                self.lines.append("break => broken")
                self.origins.append(None)
            else:
                number, _, _, line = trace.steps[index]
                self.lines.append(line)
                self.origins.append((trace.name, number))

    def text(self, has_answers=True):
        lines = (
            self.lines
            if has_answers
            else (line if line[:1] == "#" else line.partition(" => ")[0] for line in self.lines)
        )
        return "".join(itertools.chain.from_iterable((line, "\n") for line in lines))

    def judged(self, program):
        """The first line that `postmig test` finds to be wrong, or a step that has woken a processor which is never
        retried, or bytes that are not those that were sent, as a text, or None. OSError if it cannot judge, NoJudge
        without a proved program."""
        environment = {**os.environ, "POSTMIG_PROVED_ONLY": "1"}
        done = subprocess.run(
            [program, "test", "--strict"], input=self.text(), capture_output=True, text=True, env=environment
        )
        if done.returncode == 0:
            return next(filter(None, map(never_retried, self.traces)), None) or self.sums.differs
        if "no proved build" in done.stderr:
            raise NoJudge(done.stderr.strip())
        found = DIFFERS.search(done.stdout) or DIFFERS.search(done.stderr)
        if not found:
            raise OSError(f"postmig test: status {done.returncode}: {done.stdout.strip()} {done.stderr.strip()}")
        line = int(found[1])
        origin = self.origins[line - 1]
        where = place(*origin) if origin else f"a break before {self.next_origin(line)}"
        return f"{where}: {self.lines[line - 1]}: {found[2]}"

    def next_origin(self, line):
        return next((place(*origin) for origin in self.origins[line:] if origin), "the end")


class Merged:
    """The scripts of all slices, in their order."""

    def __init__(self, sources, dests, seed=None, cpus=None):
        self.scripts = []
        if len(sources) != len(dests):
            raise NoOrder(f"{sources[0].name}: {len(sources)} slices, {dests[0].name}: {len(dests)}")
        for number, (source, dest) in enumerate(zip(sources, dests)):
            try:
                self.scripts.append(Script(source, dest, seed, cpus))
            except NoOrder as none:
                raise NoOrder(f"{slice_name(number, len(sources))}{none}") from None
        self.differs = early(sources, "switched", "stopped", "switches before the guest has stopped") or (
            early(dests, "runs", "package", "has no Package yet when the guest runs"))

    def steps(self):
        return sum(len(script.lines) - HEAD for script in self.scripts)

    def judged(self, program):
        """As of each script: the first that is wrong, with its slice; and what the slices owe to each other."""
        for number, script in enumerate(self.scripts):
            differs = script.judged(program)
            if differs:
                return f"{slice_name(number, len(self.scripts))}{differs}"
        return self.differs

    def __str__(self):
        each = f" in each of {len(self.scripts)} slices, all judged" if len(self.scripts) > 1 else ""
        frames, pages = (sum(getattr(script.sums, key) for script in self.scripts) for key in ("frames", "pages"))
        same = f"; {frames} frames without pages and {pages} pages have the bytes that were sent"
        return f"a run of the machine{each}: {self.steps()} steps{same if frames or pages else ''}"


def slice_name(number, count):
    return f"slice {number}: " if count > 1 else ""


def early(traces, after, before, what):
    """The slice for which `after`, of any slice, is not after its `before`, as a text, or None."""
    first = min((trace.moments[after] for trace in traces if after in trace.moments), default=None)
    for number, trace in enumerate(traces):
        if first is not None and trace.moments.get(before, first) > first:
            return f"{trace.name}: {slice_name(number, len(traces))}it {what}"
    return None


def merge_files(source, dest, seed=None, cpus=None):
    return Merged(read(source, SOURCE), read(dest, DEST), seed, cpus)
