"""The accesses of a guest that moves, as a history. Each case returns what is wrong, or None."""

import re
import tempfile

import histories
import pair

GUEST = ["--memory", "2M", "--threads", "4", "--given", "2", "--pause", "100"]
# Words of the source, and how often the connection breaks at least: in pre-copy, and in post-copy.
BROKEN = (
    (["--rounds", "2", "--target", "0", "--cut", "main:out:100000"], 1),
    (["--rounds", "0", "--cut", "main:post:20000", "--cut", "main:post:200000"], 2),
)


def migrated(program, source, breaks, **more):
    """A migration that has ended, and what is wrong with it or its history."""
    migration = pair.Migration(GUEST, source, ["--check-owed"], program, has_history=True, **more)
    wrong = migration.finish(30)
    if not wrong and migration.source.number("source", "breaks") < breaks:
        wrong = f"fewer than {breaks} breaks"
    return migration, wrong


def one_memory_at_both_places(program):
    for source, breaks in BROKEN:
        for is_handed in (False, True):
            wrong = migrated(program, source, breaks, is_handed=is_handed)[1]
            if wrong:
                return f"{source}, {'a monitor' if is_handed else 'a destination'}: {wrong}"
    return None


def an_hour_later(line):
    thread, begin, end, rest = line.split(" ", 3)
    return f"{thread} {int(begin) + 3600 * 10**9} {int(end) + 3600 * 10**9} {rest}"


def differs(name, lines, status, kind):
    """What is wrong with the verdict on these lines: it must have this status, and name this kind."""
    verdict = histories.Verdict(pair.POSTMIG, lines)
    if verdict.status == status and (kind is None or kind in verdict.kinds):
        return None
    return f"{name}: status {verdict.status}, {verdict.kinds}" 


def what_is_not_one_memory(program):
    """In a right history one load at the destination finds 0, or what no one has stored; or the ticks of the
    destination are lower than those of the source; or the end is lacking."""
    with tempfile.TemporaryDirectory(prefix="live-") as folder:
        migration, wrong = migrated(program, *BROKEN[0], kept=folder)
        if wrong or not migration.history:
            return wrong
        (before, _), (after, _) = map(histories.read, migration.accesses)
    at = max(place for place, line in enumerate(after) if " load " in line and not line.endswith(" 0x0\n"))
    zero, other = (re.sub("0x[0-9a-f]+$", value, after[at]) for value in ("0x0", "0x1234567890ab"))
    whole = [*histories.HEAD, *before, *after, f"end {len(before) + len(after)}\n"]
    place = len(histories.HEAD) + len(before)
    ahead = map(an_hour_later, before)
    cases = (("right", whole, histories.KEPT, None), ("no end", whole[:-1], histories.UNDECIDED, None),
             ("zero", [*whole[:place + at], zero, *whole[place + at + 1:]], histories.WRONG, "zeros"),
             ("another value", [*whole[:place + at], other, *whole[place + at + 1:]], histories.WRONG, "never-written"),
             ("lower ticks", [*histories.HEAD, *ahead, *whole[place:]], histories.WRONG, "future"))
    return next(filter(None, (differs(*case) for case in cases)), None)


CASES = (one_memory_at_both_places, what_is_not_one_memory)
