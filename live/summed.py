"""Sums at the end of two traces, of which one is changed: live/merge must name it. A case returns what is wrong, or
None."""

import pathlib
import tempfile

import merging
import pair

# A line of the source's trace, or of the destination's, that the other side has too. (The epoch 1 is broken, and the
# report in 2 is taken.)
CHANGED = ((merging.SOURCE, "# sum sent 1 "), (merging.SOURCE, "# sum taken 2 "), (merging.SOURCE, "# sum page "),
           (merging.DEST, "# sum sent 2 "), (merging.DEST, "# sum taken 1 "), (merging.DEST, "# sum page "))


def changed(text, begin):
    """With another last digit in the first line that begins so."""
    at = text.index("\n", text.index(f"\n{begin}") + 1) - 1
    return text[:at] + ("1" if text[at] == "0" else "0") + text[at + 1:]


def sums(texts):
    return merging.Sums(*(merging.Trace(name, name, text) for name, text in texts.items()))


def a_changed_sum_is_named(program):
    with tempfile.TemporaryDirectory(prefix="live-") as folder:
        migration = pair.Migration(["--memory", "8M", "--cold", "8"], ["--rounds", "1", "--cut", "main:out:300000"], [],
                                   program, is_traced=True, kept=folder)
        wrong = migration.finish()
        if wrong:
            return wrong
        names = (merging.SOURCE, merging.DEST)
        texts = {name: pathlib.Path(trace).read_text() for name, trace in zip(names, migration.traces)}
    right = sums(texts)
    if right.differs or not right.frames or not right.pages:
        return f"of right sums: {right.differs or str(right) or 'none were compared'}"
    for name, begin in CHANGED:
        found = sums({**texts, name: changed(texts[name], begin)})
        if "are not those that were sent" not in (found.differs or ""):
            return f"{name}, {begin}: another sum is not named: {found.differs}"
    return None


CASES = (a_changed_sum_is_named,)
