#!/usr/bin/env python3
"""Prints the differences between the model's userfault object and a kernel's, for docs/LINUX.md.

python3 bench/check/differences.py [--write]

The names are those of kernel_rules' `Difference`, of which the certificate of a log has cases. What shows each one is
a fact or a program of conformance/, a tag of its replays, or a stored log of audit/. Without --write the table of the
page is compared. The status is 1 where it is another, where a name has no text, where nothing shows a difference, or
where something shows one that neither the list nor a paragraph of the page has.
"""

import ast
import collections
import re
import sys

import shared  # noqa: F401

import page
from page import TOP

sys.path.insert(0, str(TOP / "conformance"))
from replay.differences import LED  # noqa: E402

PAGE, PART = TOP / "docs" / "LINUX.md", "differences"
HEAD = "| Name | The model, and a kernel | Shown by |\n|---|---|---|\n"
# What the model does, and what a kernel does, by the name of the difference in a log.
TEXTS = {
    "other-features": (
        "The handshake takes the model's features alone, and reports them; a kernel takes and reports each that it "
        "offers."
    ),
    "register-without-events": (
        "UFFDIO_REGISTER before the three events were requested is EINVAL; a kernel takes it."
    ),
    "fault-of-each-thread": (
        "One fault of a page and kind is unread, and names the first processor by its number plus 1; a kernel has "
        "one of each sleeping thread, named as gettid(2)."
    ),
    "fault-taken-away": (
        "A fault stays queued when its processor is woken; a kernel removes that of a thread, and queues it again "
        "at the end if the thread faults again. So the model's handler sees more stale faults, `woke` and `forgot`."
    ),
    "fault-on-its-way": (
        "A processor finds its page missing and queues the fault in one step; in a kernel another call may install "
        "or unprotect the page in between, and the thread does not sleep."
    ),
    "left-by-a-signal": "A processor sleeps until it is woken; in a kernel a signal ends its wait too.",
    "close": "An object is never closed; in a kernel it may be, while pages are registered with it.",
    "remove-of-each-area": (
        "MADV_DONTNEED has one REMOVE, of its whole range; in a kernel each area has one, cut to it."
    ),
    "messages-of-mremap": (
        "mremap has UNMAP of the target, UNMAP of the tail, REMAP; a kernel UNMAP of the target, REMAP, UNMAP of "
        "the tail, UNMAP of the old place."
    ),
    "order-of-two-calls": (
        "The events of a call are queued together; a kernel queues one at a time: after REMAP pages may be at an "
        "address that another call has already unmapped."
    ),
    "changing-longer": (
        "EAGAIN while the space is changing ends when the last event is read; in a kernel once the thread in its "
        "call has run on, usually a few tries later."
    ),
    "areas": (
        "Contiguous pages of one protection are one area; in a kernel those faulted in separately and joined later, "
        "or moved, are two, and UFFDIO_COPY and ZEROPAGE over both are ENOENT."
    ),
    "writeprotect-over-a-hole": (
        "UFFDIO_WRITEPROTECT over an unmapped page of a registered range is ENOENT; a kernel skips it. Refused at a "
        "later page it has changed nothing; a kernel has protected the pages before it, and calls of other threads "
        "take effect in between *(seen in logs of the kernel's selftest)*."
    ),
}
NAMED = re.compile(r'Difference::(\w+),\s*"([a-z-]+)"')
# Of a program of conformance/races, in its first line.
RACES = re.compile(r"^// \w+ .*\[([a-z-]+)\]$", re.M)


def unnamed():
    """The variants of `Difference` that the audit gives no name, or a name without a text; and texts of none."""
    crates = TOP / "crates"
    words = re.findall(r"^    (\w+),$", (crates / "kernel_rules" / "src" / "difference.rt").read_text(), re.M)
    names = dict(NAMED.findall((crates / "audit" / "src" / "summary.rt").read_text()))
    yield from (word for word in words if names.get(word) not in TEXTS)
    yield from TEXTS.keys() - names.values()


def stored_logs():
    """What the stored logs have, as audit/test finds it."""
    source = (TOP / "audit" / "tests" / "test_audit.py").read_text()
    return ast.literal_eval(re.search(r"^DIFFERENCES = (\{.*?^\})", source, re.M | re.S)[1])


def evidence():
    """What shows each difference, by its name."""
    found = collections.defaultdict(dict)
    for name in re.findall(r"^# .*\[([a-z-]+)\]$", (TOP / "conformance" / "single-calls").read_text(), re.M):
        found[name]["facts"] = "facts"
    for file in sorted((TOP / "conformance" / "races").glob("*.c")):
        for name in RACES.findall(file.read_text()):
            found[name]["races"] = f"`races/{file.name}`"
    for _, _, *rows in LED.values():
        for name in rows:
            found[name]["replays"] = "replays"
    for log, names in stored_logs().items():
        for name in names:
            found[name].setdefault("log", f"`{log}`")
    return found


def faults(shown, text):
    yield from (f"a difference without its name and text: {it}" for it in unnamed())
    section = text[text.index("## The userfault object"):]
    section = section[:section.index("\n## ")]
    for name in TEXTS:
        if not shown[name]:
            yield f"nothing shows the difference {name}"
    for name in sorted(set(shown) - set(TEXTS)):
        if f"- **{name}.**" not in section:
            yield f"a difference that docs/LINUX.md does not have: {name}, by {', '.join(shown[name])}"


def main():
    shown, text = evidence(), PAGE.read_text()
    table = HEAD + "".join(f"| `{name}` | {it} | {', '.join(shown[name].values())} |\n" for name, it in TEXTS.items())
    changed, found = page.replaced(text, PART, table, PAGE), list(faults(shown, text))
    if page.option("--write"):
        PAGE.write_text(changed)
    elif changed != text:
        found.append("docs/LINUX.md is not as 'python3 bench/check/differences.py --write' makes it")
    page.end(found, f"{len(TEXTS)} differences from a kernel")


if __name__ == "__main__":
    main()
