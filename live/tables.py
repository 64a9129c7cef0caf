"""Figures of several runs, printed and as rows of a table of docs/PERFORMANCE.md."""

import datetime
import statistics
import sys

import pair

sys.path.insert(1, str(pair.FOLDER.parent / "bench"))
import page  # noqa: E402 (it is in that folder)


def show(name, runs):
    print(name)
    for key in dict.fromkeys(key for run in runs for key in run):
        values = [run[key] for run in runs if key in run]
        print(f"    {key:22} {statistics.median(values):12,.2f}  ({min(values):,.2f} to {max(values):,.2f})")
    sys.stdout.flush()


def cell(values):
    """The median; none where there is no such figure."""
    if not values:
        return ""
    digits = 0 if statistics.median(values) >= 100 else 2
    return f"{statistics.median(values):,.{digits}f}"


def row(name, runs, keys):
    return f"| {name} | {' | '.join(cell([run[key] for run in runs if key in run]) for key in keys)} |"


def when(loads):
    """loads: the load average at the begin and at the end."""
    return (
        f"on {page.machine()}, on {datetime.date.today()}, with a load of {loads[0]:.1f} at the begin and "
        f"{loads[1]:.1f} at the end"
    )


def put(part, lines):
    page.put(part, "\n".join(lines))
