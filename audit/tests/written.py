"""Logs as text, whose calls were changed, as `planted` changes a stored log."""

from uffdlog import CALLS, HEAD, LINES, MESSAGES, lines_of

KEPT = ("started", "forked", "found", "dropped", "exit")


def word_of(value):
    if isinstance(value, tuple):
        return ":".join(map(str, value))
    return "-" if value is None else str(value)


def words_of(names, values):
    return "".join(" " + word_of(values[name]) for name in names if name in values)


def answer_of(call):
    of = CALLS[call.word]
    if call.answer == "ok":
        return "ok" + words_of(of.answer, call.values)
    return call.answer + (words_of(of.failed, call.values) if call.answer != "interrupted" else "")


def lines_of_call(call, number):
    """The lines of a call, each with its place among others, and without its time."""
    who = f"{call.space} {call.tid}"
    yield (call.begin, 0), f"{who} begin {number} {call.word}{words_of(CALLS[call.word].arguments, call.arguments)}"
    if call.end is None:
        return
    for kind, values in call.messages:
        yield (call.end, 1), f"{who} message {number} {kind}{words_of(MESSAGES[kind], values)}"
    for values in call.runs:
        yield (call.end, 1), f"{who} have {number}{words_of(LINES['have'], values)}"
    yield (call.end, 2), f"{who} end {number} {answer_of(call)}"


def text_of(name, calls):
    """The text of a log with the lines of a stored one that are not calls, and with these calls, whose lines are
    numbered by tens as `planted` does."""
    head, lines = [], []
    for number, text in enumerate(lines_of(name), 1):
        words = text.split()
        if number <= len(HEAD):
            head.append(text)
        elif words[3:4] and words[3] in KEPT:
            lines.append(((10 * number, 0), " ".join(words[1:])))
    for number, call in enumerate(sorted(calls, key=lambda call: call.begin), 1):
        lines += lines_of_call(call, number)
    lines.sort(key=lambda line: line[0])
    return "\n".join(head + [f"{time} {line}" for time, (_, line) in enumerate(lines, 1)]) + "\n"
