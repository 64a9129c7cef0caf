"""Where a replay differs from the model: the sections and rows of docs/LINUX.md.

A tag of LED says that the kernel's choice was led to the model's, so that the line is the same. A tag of KNOWN says
that the line may be another, in the way that its test allows."""

import re

CHOICES, MREMAP, OBJECT, NODES = (
    "Choices of the model", "mremap", "The userfault object", "The two nodes of a migration"
)
SECTIONS = (CHOICES, MREMAP, OBJECT, NODES)
# The rows of the object's section that have no name in a log.
CLEARING = "When MADV_DONTNEED clears the pages"

# Answered by a rule of the model alone.
MODEL_ONLY = "model-only"

# tag: (section, what is arranged), and of the object's section its row: a name of kernel_rules' `Difference`, or the
# first words of a paragraph
LED = {
    MODEL_ONLY: (CHOICES, "the kernel is not asked: accesses of a wrong form, limits of the model's address space"),
    "place-requested": (CHOICES, "the kernel is asked for the least free place"),
    "page-of-zeros": (CHOICES, "the page of zeros that a load makes present where no one watches is removed"),
    "areas": (CHOICES, "one area of the model that is several in the kernel is moved, cut or grown by pieces"),
    "fault-of-each-thread": (
        OBJECT, "the message of a second thread for a page stays unread", "fault-of-each-thread"
    ),
    "fault-taken-away": (
        OBJECT, "a message that the kernel took away as its thread was woken is read from the model's queue",
        "fault-taken-away",
    ),
    "order-of-faults": (OBJECT, "messages of threads that slept before are read first", "fault-taken-away"),
    "faults-read-first": (OBJECT, "unread faults are read before an event", "fault-of-each-thread"),
    "messages-of-mremap": (
        OBJECT, "REMAP is read at its place in the model's order, and UNMAP of the old place is left out",
        "messages-of-mremap",
    ),
    "remove-of-each-area": (OBJECT, "the REMOVE messages of a dontneed are read as one", "remove-of-each-area"),
    "read-early": (
        OBJECT, "the messages of two calls are read at once, and handed out in the model's order", "order-of-two-calls"
    ),
    "cleared-at-once": (OBJECT, "the messages of a dontneed are read at once, so that it clears in its step", CLEARING),
    "sleeps-again": (
        OBJECT, "a thread that faults again before its retry is taken out of the kernel", "left-by-a-signal"
    ),
    "stopped-and-retried": (
        NODES, "a thread that sleeps on a page which reads otherwise now is taken out of the kernel"
    ),
    "stopped-at-switch": (NODES, "a thread that sleeps at the switch is taken out of the kernel"),
    "cleared-late": (OBJECT, "with --late: a dontneed sleeps on its message, and clears once that was read", CLEARING),
}


def errors(*pairs):
    """A test for two errnos, the model's and the kernel's."""
    allowed = {(f"refused {model}", f"refused {kernel}") for model, kernel in pairs}
    return lambda model, kernel: (model, kernel) in allowed


def moves_all_the_same(model, kernel):
    """What the model refuses for its areas the kernel does."""
    return model == "refused EFAULT" and re.fullmatch(r"at 0x[0-9a-f]+", kernel) is not None


# tag: (section, what differs, whether a pair of replies is that difference)
KNOWN = {
    "refusal-order": (
        CHOICES,
        "the order of refusals",
        errors(("EINVAL", "ENOMEM"), ("EINVAL", "EPERM"), ("EINVAL", "EFAULT"), ("EFAULT", "EINVAL")),
    ),
    "growth-of-several-areas": (CHOICES, "growth of what is several areas in the kernel", errors(("ENOMEM", "EFAULT"))),
    "mremap-of-several-areas": (MREMAP, "an mremap over several areas or a hole", moves_all_the_same),
    "mremap-to-a-size-past-the-space": (
        MREMAP,
        "a new size past the kernel's address space",
        errors(("ENOMEM", "EINVAL"), ("EFAULT", "EINVAL")),
    ),
}


def section(tag):
    return (LED.get(tag) or KNOWN[tag])[0]


def is_known(tags, model, kernel):
    """Whether two lines differ in a way that docs/LINUX.md has."""
    (cpu, _, model_reply), (other, _, kernel_reply) = (
        line.partition(" ")[2].partition(" ") for line in (model, kernel)
    )
    same_cpu = cpu == other and model.startswith("cpu ") and kernel.startswith("cpu ")
    return same_cpu and any(tag in KNOWN and KNOWN[tag][2](model_reply, kernel_reply) for tag in tags)


def kind(tags, model, kernel):
    """same, not asked, led, known or unexpected. A difference that docs/LINUX.md does not have is unexpected."""
    if any(tag not in LED and tag not in KNOWN for tag in tags):
        return "unexpected"
    if model == kernel:
        return "same" if not tags else "not asked" if tags == [MODEL_ONLY] else "led"
    return "known" if is_known(tags, model, kernel) else "unexpected"
