"""What `uffd-audit` says of small logs: the cases of the file `small-logs`.

    audit/tests/test_small_logs.py --table [PROGRAM]

prints each sentence with what is said of its log, as the cases have it; with PROGRAM as that says it. `--log NUMBER`
prints the log of a case.

A case is a block of lines: a sentence; what must be said, and after a bar the head; the lines of the log below it.

What must be said is `certified`, `no run`, `not judged`, `nothing` to judge, or `wrong` lines, with the rules of the
findings but that pages are missing at the end of the log. Where no run is found they are not compared.

The head `FEATURES MODE [BITS]` opens object 8:4 with a handshake of FEATURES, and registers four pages from 0x10000 on
in MODE. A scan finds them missing; or with BITS; with `-` for BITS there is none. The head `-` is empty.

A line is of thread 70 of process 70, of thread `71` of that process, or of `80:81`, thread 81 of process 80.
`CALL = ANSWER` is a call that begins and ends there; the answer of a read may be its messages, with commas. Without
` = ` it is a line of the language, of which `begin`, `message`, `have` and `end` may leave out the number of the call.
"""

import json
import os
import re
import sys
import tempfile
import unittest
from pathlib import Path

import common

CASES = Path(__file__).with_name("small-logs")
HEAD = "uffdlog 1\nrecorder test 1\nkernel Linux - x86_64\npage 4096\nclock thread\ncommand -\n"
VERDICTS = {2: "wrong", 3: "no run", 6: "nothing"}
PAGES = "0x10000 0x4000"


def head_of(words):
    """The lines of a head."""
    if words == ["-"]:
        return []
    features, mode, *bits = words
    ioctls = {0: "0x13c", 2: "0x17c", 4: "0x1bc", 6: "0x1fc"}[int(mode, 0) & 6]
    lines = [
        "started 69 x", "open syscall 0x80800 = ok 8:4", f"api 8:4 0xaa {features} = ok 0x1ffff 0x8000000000000003",
        f"register 8:4 {PAGES} {mode} = ok {ioctls}",
    ]
    if bits == ["-"]:
        return lines
    return lines + [f"begin scan 8:4 {PAGES}", *(f"have {PAGES} {it}" for it in bits), f"end ok {len(bits)}"]


class Writer:
    """Writes the lines of a log, and numbers its calls."""

    def __init__(self):
        self.text, self.calls, self.open = HEAD, 0, {}

    def line(self, process, thread, words):
        self.text += f"1 {process} {thread} {words}\n"

    def numbered(self, process, thread, kind, rest):
        """A line of the thread's call: the begin of its next one, or one of the call that it is in."""
        if kind == "begin":
            self.calls += 1
            self.open[process, thread] = self.calls
        self.line(process, thread, f"{kind} {self.open[process, thread]} {rest}")

    def call(self, process, thread, words, answer):
        """A whole call."""
        messages = answer.split(", ") if re.match("(fault|remap|remove|unmap|fork) ", answer) else []
        self.numbered(process, thread, "begin", words)
        for message in messages:
            self.numbered(process, thread, "message", message)
        self.numbered(process, thread, "end", f"ok {len(messages)}" if messages else answer)

    def add(self, line):
        process, thread, words = re.fullmatch(r"(?:(?:(\d+):)?(\d+) )?(.+)", line).groups()
        process, thread = process or 70, thread or 70
        whole = re.fullmatch("(.+) = (.+)", words)
        part = re.fullmatch(r"(begin|message|have|end) (\D.*|0x.*)", words)
        if whole:
            self.call(process, thread, *whole.groups())
        elif words.startswith("lost "):
            self.text += f"{words}\n"
        elif part:
            self.numbered(process, thread, *part.groups())
        else:
            self.line(process, thread, words)


def log_of(head, lines):
    writer = Writer()
    for line in head_of(head.split()) + lines:
        writer.add(line)
    return writer.text


def cases(path=CASES):
    """Each sentence, with what must be said and the log."""
    text = re.sub("^#.*\n", "", path.read_text(), flags=re.M)
    for block in re.split("\n\n+", text.strip()):
        sentence, asked, *lines = block.split("\n")
        said, head = asked.split(" | ")
        yield sentence, said, log_of(head, lines)


def said_of(text):
    """What the program says of a log, in the words of a case; and all that it writes."""
    with tempfile.TemporaryDirectory() as folder:
        log = Path(folder) / "log"
        log.write_text(text)
        done = common.audit(log, "--json", "--certified")
    told = done.stdout + done.stderr
    if done.returncode in VERDICTS:
        return VERDICTS[done.returncode], told
    if done.returncode not in (0, 1, 5):
        return f"status {done.returncode}", told
    *found, summary = map(json.loads, done.stdout.splitlines())
    rules = {it["rule"] for it in found if (it["rule"], it["of"]) != ("page-owed", "end of the log")}
    words = ["certified" if summary["certified"] else "not judged", *sorted(rules)]
    is_fault = any(it["severity"] == "fault" for it in found)
    fits = done.returncode == (1 if is_fault else 0 if summary["certified"] else 5)
    return " ".join(words) if fits else f"status {done.returncode}", told


class Small(unittest.TestCase):
    maxDiff = None

    def test_small_logs(self):
        for sentence, said, log in cases():
            with self.subTest(sentence):
                found, told = said_of(log)
                self.assertEqual(found, said, f"\n{log}{told}")

    def test_cases_are_apart(self):
        """No two cases have one sentence, or one log."""
        for column in (0, 2):
            each = [case[column] for case in cases()]
            self.assertEqual(sorted(set(each)), sorted(each))


def main(words):
    if words[:1] == ["--table"]:
        for number, (sentence, said, log) in enumerate(cases(), 1):
            print(f"{number:4} {said_of(log)[0] if words[1:] else said:24} {sentence}")
    elif words[:1] == ["--log"]:
        print([*cases()][int(words[1]) - 1][2], end="")
    else:
        unittest.main()


if __name__ == "__main__":
    if sys.argv[1:2] == ["--table"] and sys.argv[2:]:
        os.environ["AUDIT_PROGRAM"] = os.path.abspath(sys.argv[2])
    main(sys.argv[1:])
