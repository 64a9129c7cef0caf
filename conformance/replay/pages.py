"""Pages and ranges of pages."""

from model.frames import PAGE
from model.nodes import address as name  # noqa: F401

# The model's address space, and the most pages that it maps.
LOW, HIGH = 0x10000, 0x100000000
MAX_PAGES = 262144
# By the number that an area of a package has.
PROTECTIONS = ("none", "r", "rw")
# Where the addresses of a process end on x86-64.
PROCESS_END = (1 << 47) - PAGE


def rounded(length):
    """A length in bytes, rounded up to whole pages."""
    return -(-length // PAGE) * PAGE


def pages_of(ranges):
    """The numbers of the pages in ranges of bytes."""
    return {page for start, end in ranges for page in range(start // PAGE, end // PAGE)}


def meets(ranges, start, end):
    """Whether one of the ranges has a byte of start .. end."""
    return any(first < end and start < last for first, last in ranges)


def cut(ranges, start, end):
    """The parts of the ranges that lie in start .. end."""
    return [(max(first, start), min(last, end)) for first, last in ranges if first < end and start < last]
