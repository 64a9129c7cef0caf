"""Faults that are planted in a clean log: each takes the calls of a log and a source of random numbers, and changes the
calls."""

import copy

from calls import Call

INSTALLS = ("copy", "zeropage")


def start(call):
    """The first byte that a call is of."""
    arguments = call.arguments
    return arguments.get("START", arguments.get("DESTINATION", arguments.get("ADDRESS")))


def installs(calls):
    return [call for call in calls if call.word in INSTALLS and call.answer == "ok"]


def fault_reads(calls):
    return [call for call in calls if call.word == "read" and call.messages and call.messages[0][0] == "fault"]


def faulted(calls):
    """The pages of faults, with the first read of each."""
    found = {}
    for call in fault_reads(calls):
        found.setdefault(call.messages[0][1]["ADDRESS"], call)
    return found


def after(call, like, places=1, **changes):
    """A call like another one, right after a call."""
    it = copy.copy(like)
    it.arguments, it.values, it.messages = dict(like.arguments), dict(like.values), list(like.messages)
    it.begin, it.end = call.end + places, call.end + places + 0.5
    for name, value in changes.items():
        setattr(it, name, value)
    return it


def answer(call, errno, number):
    call.answer, call.values = errno, {"BYTES": -number}


def of_a_fault(calls, rng):
    pages = faulted(calls)
    return rng.choice(
        [call for call in installs(calls) if start(call) in pages and pages[start(call)].end < call.begin]
    )


def of_no_fault(calls, rng):
    pages = faulted(calls)
    return rng.choice([call for call in installs(calls) if start(call) not in pages])


def install_left_out(calls, rng):
    calls.remove(of_a_fault(calls, rng))


def no_wake(calls, rng):
    of_a_fault(calls, rng).arguments["MODE"] = 1


def ok_on_a_present_page(calls, rng):
    call = rng.choice(installs(calls))
    calls.append(after(call, call))


def installed_again(calls, rng):
    call = rng.choice(installs(calls))
    calls.append(after(call, call, answer="EEXIST", values={"BYTES": -17}))


def installed_twice_and_asleep(calls, rng):
    call = of_a_fault(calls, rng)
    calls.append(after(call, call, answer="EEXIST", values={"BYTES": -17}))
    call.arguments["MODE"] = 1


def wrong_length(calls, rng):
    rng.choice(installs(calls)).values["BYTES"] = 2048


def exists_on_a_missing_page(calls, rng):
    answer(of_a_fault(calls, rng), "EEXIST", 17)


def touched_before(calls, rng):
    answer(of_no_fault(calls, rng), "EEXIST", 17)


def not_registered(calls, rng):
    answer(rng.choice(installs(calls)), "ENOENT", 2)


def changing_for_no_reason(calls, rng):
    answer(rng.choice(installs(calls)), "EAGAIN", 11)


def registered_late(calls, rng):
    call, then = [call for call in calls if call.word == "register"][-6], installs(calls)[rng.randrange(50, 1200)]
    call.begin, call.end = then.end + 1, then.end + 2


def unregistered_early(calls, rng):
    call, then = [call for call in calls if call.word == "unregister"][-6], installs(calls)[-rng.randrange(50, 1200)]
    call.begin, call.end = then.end + 1, then.end + 2


def outside(calls, rng):
    call = rng.choice(installs(calls))
    it = after(call, call)
    it.arguments["START" if "START" in it.arguments else "DESTINATION"] += 1 << 32
    calls.append(it)
    return it


def refused_outside(calls, rng):
    answer(outside(calls, rng), "ENOENT", 2)


def never_installed(calls, rng):
    for _ in range(5):
        calls.remove(of_no_fault(calls, rng))


def two_stale_faults(calls, rng):
    read = rng.choice(fault_reads(calls))
    last = max(
        (call for call in installs(calls) if start(call) == read.messages[0][1]["ADDRESS"]), key=lambda call: call.end
    )
    calls += [after(last, read, 1), after(last, read, 3)]


def fault_outside(calls, rng):
    read = rng.choice(fault_reads(calls))
    values = dict(read.messages[0][1])
    values["ADDRESS"] += 1 << 33
    calls.append(after(read, read, messages=[("fault", values)]))


def event_not_asked_for(calls, rng):
    call = rng.choice(installs(calls))
    read = next(it for it in fault_reads(calls) if it.object == call.object)
    calls.append(after(call, read, messages=[("remove", {"START": start(call), "END": start(call) + 4096})]))


def message_that_nobody_read(calls, rng):
    call = [call for call in calls if call.word == "unregister"][-6]
    where = {"O": call.arguments["O"]}
    calls.append(Call("poll", where, call.begin - 8, call.space, 9, call.begin - 7, "ok", {"EVENTS": 1}))
    calls.append(Call("read", {**where, "ROOM": 32}, call.begin - 6, call.space, 9, call.begin - 5, "EAGAIN"))


def fault_of_an_unprotected_page(calls, rng):
    call = rng.choice(
        [
            it
            for it in calls
            if it.word == "writeprotect" and it.arguments["MODE"] == 0 and it.arguments["LENGTH"] == 4096
        ]
    )
    read, values = fault_reads(calls)[0], {"ADDRESS": start(call), "FLAGS": 3, "THREAD": 0}
    calls += [after(call, read, places, messages=[("fault", values)]) for places in (1, 3)]


def event_reads(calls, *kinds):
    return [call for call in calls if call.word == "read" and len(call.messages) == 1 and call.messages[0][0] in kinds]


def event_never_read(calls, rng):
    calls.remove(rng.choice(event_reads(calls, "remove", "unmap")))


def event_of_another_range(calls, rng):
    values = rng.choice(event_reads(calls, "remove")).messages[0][1]
    values["START"] += 1 << 20
    values["END"] += 1 << 20


def map_call_for_ever(calls, rng):
    """Nobody reads its event. Its page was put before: another one may be taken back, since an earlier MADV_FREE."""
    put = {start(it): it.end for it in reversed(installs(calls))}
    reads = [it for it in event_reads(calls, "remove") if put.get(it.messages[0][1]["START"], it.begin) < it.begin]
    read = rng.choice(reads)
    first = read.messages[0][1]["START"]
    calls.remove(read)
    call = next(
        it
        for it in calls
        if it.word == "madvise" and it.arguments["ADDRESS"] == first and it.begin < read.end < it.end + 1000
    )
    call.end, call.answer = None, None


# Each with the log that it is planted in, and the rule that the audit must name.
PLANTED = (
    ("qemu-strace", touched_before, "present-before"),
    ("qemu-push", install_left_out, "fault-not-resolved"),
    ("qemu-push", no_wake, "fault-not-resolved"),
    ("qemu-push", ok_on_a_present_page, "unexplained-answer"),
    ("qemu-push", installed_again, "put-again"),
    ("qemu-push", installed_twice_and_asleep, "put-twice"),
    ("qemu-push", wrong_length, "unexplained-answer"),
    ("qemu-push", exists_on_a_missing_page, "unexplained-answer"),
    ("qemu-push", not_registered, "unexplained-answer"),
    ("qemu-push", changing_for_no_reason, "unexplained-answer"),
    ("qemu-push", registered_late, "unexplained-answer"),
    ("qemu-push", touched_before, "unexplained-answer"),
    ("qemu-push", outside, "unexplained-answer"),
    ("qemu-push", refused_outside, "not-registered"),
    ("qemu-push", never_installed, "page-owed"),
    ("qemu-push", two_stale_faults, "unexplained-answer"),
    ("qemu-push", fault_outside, "unexplained-answer"),
    ("qemu-push", event_not_asked_for, "unexplained-answer"),
    ("qemu-push", unregistered_early, "page-owed"),
    ("qemu-push", message_that_nobody_read, "unexplained-answer"),
    ("qemu-snapshot", fault_of_an_unprotected_page, "unexplained-answer"),
    ("live-handler", event_never_read, "unexplained-answer"),
    ("live-handler", event_of_another_range, "unexplained-answer"),
    ("live-handler", map_call_for_ever, "unexplained-answer"),
)
