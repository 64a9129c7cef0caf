#!/usr/bin/env python3
"""Draws docs/architecture.svg: the crates of the program and of the library in groups, and which group depends on
which.

python3 bench/check/architecture.py [--write]

The edges are those of crates.txt; one that follows from others is left out. Without --write it changes nothing, and the
status is 1 where the picture is not as it would be drawn, or where crates.txt has a crate in no group.
"""

import sys

import shared  # noqa: F401

import page
import tower

PICTURE = page.TOP / "docs" / "architecture.svg"
# From the top: the height of each row, and its groups, each with what it is, its crates, and how many of the twelve
# columns it takes. A group of the first row without a neighbour below it is as high as both rows.
ROWS = (
    (52, ("the programs", "postmig uffd_audit console command_line streams", 9), ("the library for C", "postmig_c", 3)),
    (
        148,
        (
            "tools over scripts and frames",
            "wiretap host_calls frames expected explore finishing history history_order history_search history_judge",
            4,
        ),
        ("threads", "threads rig pusher", 2),
        ("logs of calls", "trace_audit audit call_log strace_text log_entries kernel_rules uffd_log", 2),
        ("looking inside", "draw show lint explain", 2),
        ("lone nodes", "nodes", 2),
    ),
    (
        52,
        ("steps to completion; all schedules", "finish schedules reachable", 3),
        ("scripts, transcripts and replies as text; pictures", "engine grammar report hosts diagram", 9),
    ),
    (52, ("a migration: both nodes and three wires", "world", 12)),
    (52, ("the source", "precopy dirty_log", 6), ("the destination", "fault_handler owed_pages", 6)),
    (52, ("frames, and the wires that carry them", "wires frame_decoder page_stream", 12)),
    (
        52,
        (
            "a guest's memory with its userfault object, and its processors",
            "guest uffd_ioctl userfault area_map page_table vcpu",
            12,
        ),
    ),
    (52, ("the machine and the flat memory: definitions and laws", "mig_model mig_laws mig_base", 12)),
    (52, ("what all share; words and lines", "foundation words lines", 12)),
)
WIDTH, COLUMN, COLUMNS, GAP, RISE, LETTER = 748, 60, 12, 12, 26, 7.0
STYLE = (
    "text{font-family:system-ui,sans-serif;fill:#1f2933}.t{font-size:13px;font-weight:600}"
    ".c{font-size:11.5px;font-family:ui-monospace,monospace;fill:#52606d}"
    "rect.b{fill:#f5f7fa;stroke:#9aa5b1}rect.w{fill:#e3f2ec;stroke:#3f8f6b}path{stroke:#7b8794;fill:none}#h "
    "path{fill:#7b8794;stroke:none}"
)


class Group:
    """A box of the picture."""

    def __init__(self, name, crates, row, place, size):
        self.name, self.crates, self.row = name, crates.split(), row
        (self.x, self.y), (self.width, self.height) = place, size

    def lines(self):
        """The names of its crates, in lines that the box has room for."""
        line = ""
        for crate in self.crates:
            if line and len(line) + 1 + len(crate) > (self.width - 20) / LETTER:
                yield line
                line = crate
            else:
                line = f"{line} {crate}".strip()
        yield line

    def box(self):
        kind = "w" if "world" in self.crates else "b"
        yield f'<rect class="{kind}" x="{self.x}" y="{self.y}" width="{self.width}" height="{self.height}" rx="5"/>'
        yield f'<text class="t" x="{self.x + 10}" y="{self.y + 21}">{self.name}</text>'
        for number, line in enumerate(self.lines()):
            yield f'<text class="c" x="{self.x + 10}" y="{self.y + 40 + 16 * number}">{line}</text>'


def groups():
    found, top = [], 16
    for row, (height, *cells) in enumerate(ROWS):
        left = 0
        for name, crates, columns in cells:
            # (a box of the first row without a neighbour below it reaches down to the end of the second)
            is_high = row == 0 and left >= sum(it[2] for it in ROWS[1][1:])
            size = columns * COLUMN - GAP, height + (RISE + ROWS[1][0] if is_high else 0)
            found.append(Group(name, crates, row, (20 + left * COLUMN, top), size))
            left += columns
        top += height + RISE
    return found


def edges(found):
    """Which group depends on which: the edges between their crates, without those that follow from others."""
    known = tower.crates()
    home = {crate: group for group in found for crate in group.crates}
    if missing := {it for top in ("postmig", "uffd_audit", "postmig_c") for it in tower.below(top)} - set(home):
        sys.exit(f"architecture: no group has {', '.join(sorted(missing))}")
    direct = {
        group: {home[low] for crate in group.crates for low in known[crate] if low in home} - {group} for group in found
    }

    def reached(group):
        return direct[group].union(*(reached(it) for it in direct[group]))

    for group in found:
        for low in direct[group]:
            if low.row <= group.row:
                sys.exit(f"architecture: '{group.name}' depends on '{low.name}', which is drawn no lower")
            if not any(low in reached(other) for other in direct[group] - {low}):
                yield group, low


def arrow(high, low):
    """A line from a box down to one that it depends on, from the middle of the part that they share."""
    left, right = max(high.x, low.x), min(high.x + high.width, low.x + low.width)
    if left >= right:
        sys.exit(f"architecture: '{low.name}' is not drawn below '{high.name}'")
    return f'<path d="M{(left + right) / 2:g} {high.y + high.height}V{low.y - 6}" marker-end="url(#h)"/>'


def drawn():
    found = groups()
    height = found[-1].y + found[-1].height + 16
    lines = [
        f'<svg xmlns="http://www.w3.org/2000/svg" viewBox="0 0 {WIDTH} {height}" width="{WIDTH}" height="{height}">',
        "<title>The crates of postmig: each group depends on those that its arrows lead to</title>",
        f"<style>{STYLE}</style>",
        (
            '<defs><marker id="h" markerWidth="8" markerHeight="8" refX="4" refY="3" orient="auto"><path d="M0 0L6 '
            '3L0 6z"/></marker></defs>'
        ),
        f'<rect width="{WIDTH}" height="{height}" fill="#fff"/>',
    ]
    lines += [arrow(*it) for it in sorted(edges(found), key=lambda it: (it[0].row, it[0].x, it[1].x))]
    lines += [line for group in found for line in group.box()]
    return "\n".join([*lines, "</svg>"]) + "\n"


def main():
    page.option("--write")
    page.keep(PICTURE, drawn())


if __name__ == "__main__":
    main()
