"""A guest in slices: sides that are killed, stopped, replaced or cancelled while each slice has a channel of its own,
slices that do not fit, and more threads than the nodes have places. Each case returns what is wrong, or None."""

import signal
import tempfile
import time

import hurt
import kept
import lacking
import pair

SLICES = ["--slices", "3"]
GUEST = [*hurt.MEMORY, *SLICES]
QUICK = ["--silence", "1"]
# Of each slice its part.
PRECOPY = ["--rounds", "1", "--rate", "300"]
CALL = "UFFDIO_COPY of page"


def killed(both, side):
    side.process.send_signal(signal.SIGKILL)
    side.end()
    return both


def a_destination_that_dies_before_the_switch(program):
    both = hurt.Watched(program, [*PRECOPY, "--patience", "1"], memory=GUEST)
    both.at("source precopy")
    killed(both, both.dest)
    return hurt.expect([("source", both.source.end(), pair.LOST, "the guest has run on here, and its memory is right")])


def another_destination_before_the_switch(program):
    both = hurt.Watched(program, [*PRECOPY, "--patience", "60"], memory=GUEST)
    both.at("source precopy")
    killed(both, both.dest)
    dest = both.another_dest()
    both.source.order("rate 0")
    source = both.source.end()
    dest.ask_end()
    return hurt.expect([("source", source, pair.DONE, ""), ("destination", dest.end(), pair.DONE, "")]) or both.judged()


def another_destination_after_the_switch(program):
    both = hurt.Watched(program, hurt.SLOW, memory=GUEST)
    both.at("destination running")
    killed(both, both.dest)
    dest = both.another_dest()
    both.source.says("another destination listens there than at the switch")
    both.source.order("abandon")
    source = both.source.end()
    dest.ask_end()
    return hurt.expect([("source", source, pair.LOST, "whether it runs there is not known here"),
                        ("destination", dest.end(), pair.LOST, "it ends before the switch")])


def another_source_before_the_switch(program):
    """It takes the place of one that is stopped, in each slice; that one keeps its guest."""
    plan = [*hurt.MEMORY, *SLICES, *QUICK]
    both = hurt.Watched(program, PRECOPY, memory=plan)
    both.at("source precopy")
    pair.wait_until(lambda: both.source.number("progress", "sent") > 100)
    both.source.process.send_signal(signal.SIGSTOP)
    time.sleep(1.5)  # (for longer than it may be silent)
    other = pair.Side([str(program), "source", "--connect", both.address, *both.shared, *pair.KEPT]).end()
    both.source.process.send_signal(signal.SIGCONT)
    gone = both.source.end()
    both.dest.ask_end()
    return hurt.expect([("the other source", other, pair.DONE, ""), ("destination", both.dest.end(), pair.DONE, ""),
                        ("source", gone, pair.LOST, "this destination serves another source"),
                        ("source", gone, pair.LOST, "its memory is right")])


def a_source_that_dies_after_the_switch(program):
    both = hurt.Watched(program, hurt.SLOW, memory=GUEST)
    both.at("destination running")
    killed(both, both.source)
    both.dest.ask_end()
    if both.dest.order("end").get("ok") or both.dest.order("status").get("phase") not in ("running", "paused"):
        return "a guest that lacks pages is ended"
    both.dest.order("abandon")
    return hurt.expect([("destination", both.dest.end(), pair.LOST, "the guest is lost")])


def cancelled_before_the_switch(program):
    both = hurt.Watched(program, [*PRECOPY, "--after", "60000"], memory=GUEST)
    both.at("source precopy")
    both.source.order("cancel")
    if not pair.wait_until(lambda: both.source.status("kept")):
        return "it is not kept"
    both.source.ask_end()
    said = both.source.end()
    both.dest.ask_end()
    return hurt.expect([("source", said, pair.LOST, "cancelled by the operator"),
                        ("source", said, pair.LOST, "its memory is right"),
                        ("destination", both.dest.end(), pair.LOST, "it ends before the switch")])


def not_cancelled_after_the_switch(program):
    both = hurt.Watched(program, hurt.SLOW, memory=GUEST)
    both.at("destination running")
    answers = [both.source.order(word) for word in ("cancel", "end", "status", "push-rate 0")]
    is_right = [answer.get("ok") for answer in answers] == [False, False, None, True] and answers[2]["switched"]
    return both.migration.finish() or (None if is_right else f"{answers}")  # (it goes as fast as it can already)


def a_stopped_side(program):
    """For longer than the other one takes a connection for whole: all slices connect again."""
    for name in ("dest", "source"):
        both = hurt.Watched(program, hurt.SLOW, memory=[*GUEST, *QUICK])
        both.at("destination running")
        stopped, other = (both.dest, both.source) if name == "dest" else (both.source, both.dest)
        stopped.process.send_signal(signal.SIGSTOP)
        is_noticed = pair.wait_until(lambda side=other: side.status("breaks") >= 3)
        stopped.process.send_signal(signal.SIGCONT)
        wrong = both.finish() or (None if is_noticed else "no one notices it")
        if wrong:
            return f"{name}: {wrong}"
    return None


def a_slice_that_comes_late(program):
    """The others wait for it, and the guest runs, while its connection breaks again and again."""
    cuts = [f"--cut=1/main:out:{bytes_sent}" for bytes_sent in (300000, 400000, 1000, 0, 100, 500000, 200)]
    shared, source = [*GUEST, "--progress"], ["--rounds", "2", *cuts]
    migration = pair.Migration(shared, source, ["--check-owed"], program, is_traced=True)
    wrong, breaks = migration.finish(), migration.source.number("source", "breaks")
    return wrong or (None if breaks == len(cuts) else f"{breaks} breaks")


def a_slice_that_is_held(program):
    """By an answer that no one expects: the others get all their pages, and the guest runs on with these."""
    if kept.is_sanitized(program):
        return None
    with tempfile.TemporaryDirectory(prefix="live-") as folder:
        faulty = lacking.Faulty(program, "dest", lacking.COPY, lacking.EINVAL, folder, hurt.SLOW, slices=SLICES)
        source, dest = faulty.both.source, faulty.both.dest
        is_held = dest.says(pair.HELD)
        source.order("push-rate 0")
        have_ended = [dest.says(f"slice {number}: destination: ended") for number in (1, 2)]
        found = dest.order("status")
        is_right = is_held and all(have_ended) and found["left"] and CALL in found["stopped_by"]
        dest.order("abandon")
        said = dest.end()
        source.order("abandon")
        gone = source.end()
    wrong = hurt.expect([("destination", said, pair.REFUSED, CALL), ("source", gone, pair.LOST, "")])
    return wrong or (None if is_right else f"{have_ended}, {found}")


def slices_that_differ(program):
    plan = ["--memory", "4M", "--threads", "2"]
    two = [*plan, "--slices", "2"]
    return (kept.refused(program, two, [*plan, "--slices", "4"], "--slices: source 2, destination 4")
            or kept.refused(program, two, plan, "--slices: source 2, destination 1"))


def more_threads_than_places(program):
    """In one slice, and in several, whose threads all wait at first."""
    for threads, slices in (("64", "1"), ("200", "3")):
        shared = ["--memory", "16M", "--threads", threads, "--slices", slices, "--given", "1", "--pause", "1000"]
        shared += ["--progress"]
        wrong = pair.Migration(shared, ["--rounds", "0"], ["--check-owed"], program, is_traced=True).finish(60)
        if wrong:
            return f"{threads} threads: {wrong}"
    return None


CASES = (
    a_destination_that_dies_before_the_switch, another_destination_before_the_switch,
    another_destination_after_the_switch, another_source_before_the_switch, a_source_that_dies_after_the_switch,
    cancelled_before_the_switch, not_cancelled_after_the_switch, a_stopped_side, a_slice_that_comes_late,
    a_slice_that_is_held, slices_that_differ, more_threads_than_places,
)
