"""Faults for merge.py: each is planted into the traces of a run, or into a merged script, and must be named.

A plant is a function of what it changes and of a `random.Random`, which returns the changed one, or None where it has
no place there.
"""

import re

SOURCE, DEST = "source.trace", "dest.trace"


def places(lines, pattern):
    return [at for at, line in enumerate(lines) if re.search(pattern, line)]


def one(draw, lines, pattern):
    found = places(lines, pattern)
    return draw.choice(found) if found else None


# IN A TRACE: each is of the lines of one node


def twice(pattern):
    """A line is there once more."""
    def plant(lines, draw):
        at = one(draw, lines, pattern)
        return None if at is None else [*lines[: at + 1], *lines[at:]]
    return plant


def left_out(pattern, later=""):
    """A line is not there, to which a later one is due."""
    def plant(lines, draw):
        last = max(places(lines, later), default=0)
        at = one(draw, lines[:last] if later else lines, pattern)
        return None if at is None else [*lines[:at], *lines[at + 1 :]]
    return plant


def swapped(pattern, next_pattern):
    """Two lines that follow each other, and are not the same."""
    def plant(lines, draw):
        found = [
            at
            for at in places(lines[:-1], pattern)
            if re.search(next_pattern, lines[at + 1]) and lines[at] != lines[at + 1]
        ]
        if not found:
            return None
        at = draw.choice(found)
        return [*lines[:at], lines[at + 1], lines[at], *lines[at + 2 :]]
    return plant


def installed_early(lines, draw):
    """A copy is installed before the frame that brings it is taken."""
    for at in places(lines[:-1], "^deliver => took (zero|page)"):
        if lines[at + 1].startswith("install") and lines[at + 1].endswith(f" {lines[at].split()[-1]}"):
            return [*lines[:at], lines[at + 1], lines[at], *lines[at + 2 :]]
    return None


def acted_early(lines, draw):
    """A fault is acted on before it is read, while no other one is held."""
    held, found = 0, []
    for at, line in enumerate(lines[:-1]):
        if line.startswith("sread => read fault"):
            if not held and lines[at + 1].startswith("sact"):
                found.append(at)
            held += 1
        held -= line.startswith("sact")
    if not found:
        return None
    at = draw.choice(found)
    return [*lines[:at], lines[at + 1], lines[at], *lines[at + 2 :]]


def retried_early(lines, draw):
    """A processor tries again before the act that wakes it: it slept on the page since no one acted on that."""
    asleep = {}
    for at, line in enumerate(lines[:-1]):
        words = line.split()
        if words[0] == "cpu" and line.endswith("asleep"):
            asleep[words[1]] = int(words[3], 16) // 4096, at
        if words[0] in ("dact", "install") and words[2] not in ("advise",) and lines[at + 1].startswith("retry "):
            page, since = asleep.get(lines[at + 1].split()[1], (None, 0))
            acts = [
                it
                for it in lines[since:at]
                if re.match("dact => (zeroed|woke|forgot)|install|dread => read (remove|unmap|remap)|retry", it)
            ]
            if (
                words[3][:2] == "0x"
                and int(words[3], 16) // 4096 == page
                and words[2] in ("zeroed", "installed")
                and not acts
            ):
                return [*lines[:at], lines[at + 1], line, *lines[at + 2 :]]
    return None


def changed(pattern, to):
    """What the group of a pattern matches is changed by a function of its text."""
    def plant(lines, draw):
        at = one(draw, lines, pattern)
        if at is None:
            return None
        found = re.search(pattern, lines[at])
        begin, end = found.span(1)
        return [*lines[:at], lines[at][:begin] + to(found[1]) + lines[at][end:], *lines[at + 1 :]]
    return plant


def more(text):
    """The next page, or the next number."""
    return hex(int(text, 16) + 4096) if text.startswith("0x") else str(int(text) + 1)


def to(text):
    return lambda _: text


SENDS = r"^(send|sendrun|push|upush|end)\b"


def last_sends(lines):
    """The lines of a source that has taken Done which sent the frames of its last epoch: each of them was taken."""
    begin = max(places(lines, "^resume"), default=0)
    return [at for at in places(lines, SENDS) if at > begin] if places(lines, "=> took done") else []


def unsent(lines, draw):
    found = last_sends(lines)
    if not found:
        return None
    at = draw.choice(found)
    return [*lines[:at], *lines[at + 1 :]]


def cut_off(lines, draw):
    """Its last frames are not there, and the other side has taken them."""
    found = last_sends(lines)
    return lines[: draw.choice(found)] if found else None


TRACES = (
    ("a frame is taken twice", DEST, twice(r"^deliver => took (zero|page|run|discard|package|end)")),
    ("an urgent frame is taken twice", DEST, twice("^udeliver")),
    ("a frame is left out by its sender", SOURCE, unsent),
    (
        "a frame is left out by its taker",
        DEST,
        left_out("^deliver => took (discard|package)", "^(deliver|cpu|retry|install)"),
    ),
    ("a trace is cut off", SOURCE, cut_off),
    (
        "two frames are taken in the other order",
        DEST,
        swapped("^deliver => took (zero|page|run)", "^deliver => took (zero|page|run)"),
    ),
    ("a copy is installed before it has come", DEST, installed_early),
    ("a fault is acted on before it is read", SOURCE, acted_early),
    ("a fault is retried before it is acted on", DEST, retried_early),
    ("a notice is left out", DEST, left_out("^notice dest", "=> took resume")),
    (
        "a notice comes too early",
        DEST,
        lambda lines, draw: early(lines, "^notice dest", "^u?deliver => took (?!resume)"),
    ),
    ("a resume is left out", SOURCE, left_out("^resume", "=> took recv")),
    ("a Resume is not taken", DEST, left_out("=> took resume", "^deliver")),
    ("the epoch of a Resume is wrong", DEST, changed("^# epoch ([0-9]+)", more)),
    ("the epoch of a push is wrong", SOURCE, changed("^u?push 0x[0-9a-f]+ ([0-9]+) => sent", more)),
    ("a request is taken that no one has made", SOURCE, changed("^back => took request (0x[0-9a-f]+)", more)),
    ("the first map call is left out", SOURCE, lambda lines, draw: lines[1:] if " mmap " in lines[0] else None),
    ("an event is left unread", DEST, left_out("^dread => read (remove|unmap|remap)", "^(install|dact) =>")),
)


def early(lines, pattern, over):
    """A line is moved up over the last line before it that the other pattern matches."""
    for at in places(lines, pattern):
        before = places(lines[:at], over)
        if before and not places(lines[before[-1] : at], "^notice|=> took resume"):
            return [*lines[: before[-1]], lines[at], *lines[before[-1] : at], *lines[at + 1 :]]
    return None


ANSWERS = (
    ("another page is sent", SOURCE, changed(r"^(?:send|push|upush)\b.* => sent \w+ (0x[0-9a-f]+)", more)),
    ("a round has a page more", SOURCE, changed("^round => round [0-9]+ todo ([0-9]+)", more)),
    (
        "a fault of another kind is read",
        SOURCE,
        changed("^sread => read fault 0x[0-9a-f]+ (write-protect)", to("missing")),
    ),
    ("a page is woken and not unprotected", SOURCE, changed("^sact => (unprotected)", to("woke"))),
    ("a page more is owed", SOURCE, changed("^switch => switched discard [0-9]+ owed ([0-9]+)", more)),
    ("a page more is discarded", DEST, changed("^deliver => took discard ([0-9]+)", more)),
    ("another page is dequeued", SOURCE, changed("^serve => asked (0x[0-9a-f]+)", more)),
    ("a report has a page more", SOURCE, changed("^back => took recv running ([0-9]+)", more)),
    ("a fault of another page is read", DEST, changed("^dread => read fault (0x[0-9a-f]+)", more)),
    ("a page is zeroed that is owed", DEST, changed("^dact => (requested 0x[0-9a-f]+ for)", to("zeroed"))),
    ("a copy is installed elsewhere", DEST, changed("^install => installed (0x[0-9a-f]+)", more)),
    ("a copy is dropped that is owed", DEST, changed("^install => (installed 0x[0-9a-f]+ from)", to("dropped"))),
    ("a call waits for a message more", DEST, changed("^cpu .* => cpu [0-9]+ in call ([0-9]+)", more)),
    ("a load reads another value", DEST, changed("=> cpu [0-9]+ value (0x[0-9a-f]+)", more)),
    (
        "a store sleeps that is made",
        SOURCE,
        changed("^cpu ([0-9]+ store .* => cpu [0-9]+ done)", lambda text: text.replace("done", "asleep")),
    ),
)


# IN A MERGED SCRIPT: each is of its lines


def moved_before(pattern, before):
    """A line is moved up to right before the last line above it that the other pattern matches."""
    def plant(lines, draw):
        at = one(draw, lines, pattern)
        above = places(lines[:at], before) if at is not None else ()
        return [*lines[: above[-1]], lines[at], *lines[above[-1] : at], *lines[at + 1 :]] if above else None
    return plant


SCRIPTS = (
    ("Advise is taken before the start", moved_before("^deliver => took advise", "^start")),
    ("a Package is taken before the switch", moved_before("^deliver => took package", "^switch =>")),
    ("an End is taken before it is sent", moved_before("^deliver => took end", "^end =>")),
    ("a Done is taken before it is sent", moved_before("^back => took done", "^deliver => took end")),
    ("a notice comes before its break", moved_before("^notice source", "^break")),
    ("the other notice comes before its break", moved_before("^notice dest", "^break")),
    ("a resume comes before a notice", moved_before("^resume", "^notice")),
    ("a Resume is taken before it is sent", moved_before("^deliver => took resume", "^resume")),
    (
        "a break comes before a frame that is taken",
        moved_before("^break", "^u?deliver => took (zero|page|run|discard|package)"),
    ),
    ("a break is left out", left_out("^break")),
    ("there is a break more", twice("^break")),
)


# ANY CHANGE


def mutated(lines, draw):
    """A few lines are left out, repeated, swapped, cut off or changed somewhere."""
    lines = list(lines)
    for _ in range(draw.choice((1, 1, 1, 2, 4))):
        at, other = draw.randrange(len(lines)), draw.randrange(len(lines))
        words = lines[at].split(" ")
        word = draw.randrange(len(words))
        kind = draw.randrange(7)
        if kind == 0:
            lines[at : at + 1] = []
        elif kind == 1:
            lines.insert(at, lines[other])
        elif kind == 2:
            lines[at], lines[other] = lines[other], lines[at]
        elif kind == 3:
            lines = lines[: at + 1]
        elif kind == 4:
            lines[at] = f"{lines[at].partition(' => ')[0]} => {lines[other].partition(' => ')[2]}"
        else:
            words[word : word + 1] = (
                [draw.choice(("0x10000", "=>", "", "7", "resume", "-1", "9" * 5000, "\u0661", "\r"))]
                if kind == 5
                else []
            )
            lines[at] = " ".join(words)
        lines = lines or [""]
    return lines
