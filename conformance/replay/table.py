"""The table of a run: by section of docs/LINUX.md, and in it by what differs."""

from collections import Counter

from .differences import KNOWN, LED, SECTIONS, section

KINDS = ("same", "not asked", "led", "known", "unexpected")
WIDTH = 44


def row(title, counts, example=""):
    total = sum(counts[kind] for kind in KINDS)
    figures = "".join(f"{number:>12,}" for number in (total, *(counts[kind] for kind in KINDS)))
    return f"{title:<{WIDTH}}{figures}  {example}".rstrip()


def of_tag(counts, tag):
    return Counter({kind: number for (found, kind), number in counts.items() if found == tag})


def rows(result):
    """(title, counts, example) of each row; a section has no counts. A line of a script with two tags counts in both of
    their rows, and once in the last one."""
    yield "Nothing differs", of_tag(result.counts, None), ""
    tags = {tag for tag, _ in result.counts if tag in LED or tag in KNOWN}
    for title in SECTIONS:
        found = sorted(tag for tag in tags if section(tag) == title)
        if found:
            yield title, None, ""
        for tag in found:
            yield f"  {tag}", of_tag(result.counts, tag), result.examples.get(tag, "")
    for tag in sorted({tag for tag, _ in result.counts if tag and tag not in tags}):
        yield f"  {tag} (not of LINUX.md)", of_tag(result.counts, tag), result.examples.get(tag, "")
    yield "All", Counter({kind: result.totals[kind] for kind in KINDS}), ""


def lines(result):
    """The table for a terminal."""
    yield f"{'':<{WIDTH}}{'lines':>12}" + "".join(f"{kind:>12}" for kind in KINDS)
    for title, counts, example in rows(result):
        yield title if counts is None else row(title, counts, example)


def figures_of(result):
    """What was looked at beside the lines, with its count."""
    for what, count in sorted(result.totals.items()):
        if what not in KINDS and what != "lines":
            yield what, count
    yield from sorted(result.checks.items())


def beside(result):
    for what, count in figures_of(result):
        yield f"{what:<{WIDTH}}{count:>12,}"


def of_page(result):
    """What the lines were, for docs/LINUX.md."""
    kinds = ", ".join(f"{kind} {result.totals[kind]:,}" for kind in KINDS)
    lines = sum(result.totals[kind] for kind in KINDS)
    yield f"{result.totals['scripts']:,} scripts, {lines:,} lines: {kinds}."
