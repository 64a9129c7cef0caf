"""The form of logs: the program takes right ones, names each wrong line with its reason, and has a verdict on any."""

import collections
import random
import re
import tempfile
import unittest

import common

SEEDS = 200 if common.QUICK else 20_000
NO_LINE = "not a line of the language"


def log(*lines, clock="thread"):
    """A log of process 7, whose lines have their times and `7 7` put before them unless they begin with a figure or
    `lost`."""
    text = [f"uffdlog 1\nrecorder test 1\nkernel - - -\npage 4096\nclock {clock}\ncommand -"]
    text += [it if it[:1].isdigit() or it.startswith("lost") else f"{at} 7 7 {it}" for at, it in enumerate(lines)]
    return "\n".join(text).encode("latin-1") + b"\n"


OPENED = ("begin 1 open syscall 0", "end 1 ok 3:5")
READ = ("begin 2 read 3:5 64", "message 2 fault 0x7000 1 9")
SCAN = ("begin 2 scan 3:5 0x4000 0x3000", "have 2 0x4000 0x1000 1")


class Forms(unittest.TestCase):
    def setUp(self):
        self.folder = tempfile.TemporaryDirectory()
        self.addCleanup(self.folder.cleanup)

    def judged(self, data):
        """The status, and the wrong lines with their reasons."""
        path = f"{self.folder.name}/log"
        with open(path, "wb") as file:
            file.write(data)
        done = common.audit(path)
        self.assertIn(done.returncode, (0, 1, 2, 3, 5, 6), done.stderr)
        said = (done.stdout + done.stderr).splitlines() if done.returncode == 2 else []
        found = [re.fullmatch(re.escape(path) + r":(\d+): (.+)", line) for line in said]
        self.assertTrue(all(found), said)
        self.assertEqual(done.returncode == 2, bool(said))
        return done.returncode, [(int(it[1]), it[2]) for it in found]

    def is_right(self, *lines, **more):
        self.assertEqual(self.judged(log(*lines, **more))[1], [])

    def is_wrong(self, data, *lines):
        self.assertEqual([line for line, _ in self.judged(data)[1]], [*lines])


class Right(Forms):
    def test_every_call(self):
        self.is_right(
            *OPENED, "begin 2 api 3:5 0xaa 0x0", "end 2 ok 0x1ffff 0x8000000000000003",
            "begin 3 register 3:5 0x4000 0x2000 3", "end 3 ok 0x15c", "begin 4 copy 3:5 0x4000 0x9001 0x1000 0x0",
            "end 4 ok 4096", "begin 5 copy 3:5 0x4000 0x9001 0x1000 0x0", "end 5 EEXIST -17",
            "begin 6 zeropage 3:5 0x5000 0x1000 0x0", "end 6 ok 4096", "begin 7 wake 3:5 0x4000 0x2000", "end 7 ok",
            "begin 8 writeprotect 3:5 0x4000 0x2000 0x1", "end 8 ok", "begin 9 poll 3:5", "end 9 ok 0x0",
            "begin 10 nonblock 3:5 1", "end 10 ok", "begin 11 dup 3:5 9", "end 11 ok 9",
            "begin 12 scan 3:5 0x4000 4096", "have 12 0x4000 0x1000 1", "end 12 ok 1",
            "begin 13 move 3:5 0x4000 0x8000 0x1000 0x0", "end 13 E999 0",
            "begin 14 continue 3:5 0x4000 0x1000 0x0", "end 14 EEXIST -17", "begin 15 poison 3:5 0x4000 0x1000 0x0",
            "end 15 ok 4096", "begin 16 unregister 3:5 0x4000 0x2000", "end 16 ok",
            "begin 17 mmap 0x0 100 3 0x22", "end 17 ok 0x8000",
            "begin 18 mremap 0x8000 1 0x2000 1 0", "end 18 ok 0xa000",
            "begin 19 madvise 0xa000 0x2000 4", "end 19 ok", "begin 20 munmap 0xa000 100", "end 20 ok",
            "begin 21 fork", "end 21 ok 88", "begin 22 close 3:5", "end 22 ok", "exit",
        )

    def test_calls_that_overlap(self):
        self.is_right(*OPENED, "begin 2 close 3:5", "2 7 8 begin 3 open syscall 0", "3 7 8 end 3 ok 4:5", "end 2 ok")
        self.is_right(*OPENED, "begin 2 wake 3:5 0 0x1000", "begin 3 wake 3:5 0 0x1000", "end 3 ok", "end 2 ok")
        self.is_right(*OPENED, "begin 2 read 3:5 -", "2 7 8 begin 3 read 3:5 32", "3 7 8 end 3 interrupted")

    def test_processes(self):
        self.is_right(
            *OPENED, "begin 2 dup 3:5 -", "end 2 ok 6", "8 8 8 forked 7", "8 8 8 found 3:5", "9 8 8 begin 1 close 3:5",
            "9 8 8 end 1 ok", "started 1 a%20b %", "found 3:6", "dropped 3:6", "found 4:6",
        )

    def test_messages(self):
        self.is_right(
            *OPENED, "begin 2 read 3:5 160", "message 2 fault 0x7000 1 9", "message 2 remap 0x1000 0x3000 0x1000",
            "message 2 remove 0x1000 0x2000", "message 2 unmap 0x1000 0x2000", "message 2 fork 4:6", "end 2 ok 5",
        )

    def test_lost_lines_excuse(self):
        self.is_right("lost 3", "begin 1 close 3:5", "end 1 ok", "end 9 ok", *READ, "end 2 ok 2")

    def test_clock_of_the_whole_log(self):
        lines = ("9 7 7 exit", "8 7 8 exit")
        self.is_right(*lines)
        self.assertEqual(self.judged(log(*lines, clock="log"))[1], [(8, "time runs back, from 9 to 8")])


class Wrong(Forms):
    """Each case is a log whose last line is wrong, and what the reason has in it."""

    CASES = (
        (NO_LINE, "", (" exit",)),
        (NO_LINE, "", ("exit ",)),
        ("not printable", "", ("found 3:5\t",)),
        ("not printable", "", ("started 1 \xe9",)),
        (NO_LINE, "", ("8 exit",)),
        (NO_LINE, "", ("0x 7 7 exit",)),
        (NO_LINE, "", ("0 4294967296 7 exit",)),
        (NO_LINE, "", ("99999999999999999999 7 7 exit",)),
        (NO_LINE, "", ("0 0 7 exit",)),
        (NO_LINE, "", ("finish 3",)),
        (NO_LINE, OPENED, ("begin 2 mlock 3:5",)),
        (NO_LINE, OPENED, ("begin 2 wake 3:5 0x1000",)),
        (NO_LINE, OPENED, ("begin 2 wake 3:5 0x1000 0x1000 0",)),
        (NO_LINE, OPENED, ("begin 2 close 5",)),
        (NO_LINE, "", ("begin 2 open socket 0",)),
        ("an answer of another call's form", OPENED, ("begin 2 close 3:5", "end 2 ok 1")),
        ("an answer of another call's form", OPENED, ("begin 2 close 3:5", "end 2 EBADF 1")),
        (NO_LINE, OPENED, ("begin 2 close 3:5", "end 2 fine")),
        ("no open call", OPENED, ("end 1 ok 3:5",)),
        ("no open call", "", ("message 1 fault 0x7000 1 9",)),
        ("another thread's", OPENED, ("begin 2 wake 3:5 0 0x1000", "9 7 8 end 2 ok")),
        ("is open since line 9", OPENED, ("begin 2 wake 3:5 0 0x1000", "begin 2 wake 3:5 0 0x1000")),
        ("not above the thread's last one", OPENED, ("begin 1 wake 3:5 0 0x1000",)),
        ("is not known in this process", "", ("begin 2 close 3:5",)),
        ("is not known in this process", OPENED, ("9 8 8 begin 2 close 3:5",)),
        ("is not known in this process", OPENED, ("begin 2 close 3:5", "end 2 ok", "begin 3 close 3:5")),
        ("is not known in this process", OPENED, ("dropped 3:5", "dropped 3:5")),
        ("is object 3, and not 4", OPENED, ("begin 2 close 4:5",)),
        ("nothing has closed it", OPENED, ("begin 2 open syscall 0", "end 2 ok 4:5")),
        ("nothing has closed it", OPENED, ("found 4:5",)),
        ("was in the log before", OPENED, ("begin 2 open syscall 0", "end 2 ok 3:6")),
        ("was in the log before", OPENED, ("begin 2 read 3:5 64", "message 2 fork 3:6")),
        ("was asked for, and 8 returned", OPENED, ("begin 2 dup 3:5 9", "end 2 ok 8")),
        (NO_LINE, OPENED, ("begin 2 read 3:5 64", "message 2 minor 0x1000")),
        ("which is no read", OPENED, ("begin 2 close 3:5", "message 2 fault 0x7000 1 9")),
        ("which is no scan", OPENED, ("begin 2 close 3:5", "have 2 0x7000 0x1000 1")),
        ("2 messages, and there are 1", OPENED + READ, ("end 2 ok 2",)),
        ("0 messages, and there are 1", OPENED + READ, ("end 2 ok 0",)),
        (
            "do not fit 32 bytes",
            OPENED,
            ("begin 2 read 3:5 32", "message 2 fault 0 1 9", "message 2 fault 0 1 9", "end 2 ok 2"),
        ),
        ("not the address of a page", OPENED, ("begin 2 wake 3:5 0x1001 0x1000", "end 2 ok")),
        ("not a number of pages", OPENED, ("begin 2 wake 3:5 0x1000 0", "end 2 ok")),
        ("not a number of pages", OPENED, ("begin 2 wake 3:5 0x1000 100", "end 2 ok")),
        ("ends past the address space", OPENED, ("begin 2 wake 3:5 0xfffffffffffff000 0x2000", "end 2 ok")),
        ("SOURCE", OPENED, ("begin 2 move 3:5 0x1000 0x2001 0x1000 0", "end 2 ok 4096")),
        ("not the address of a page", "", ("begin 2 mmap 0 0x1000 3 0x22", "end 2 ok 0x1001")),
        ("not the address of a page", "", ("begin 2 munmap 0x1001 0x1000", "end 2 ok")),
        ("not a number of pages", OPENED + READ, ("message 2 remove 0x1000 0x1000",)),
        ("not a number of pages", OPENED + READ, ("message 2 unmap 0x2000 0x1000",)),
        ("TO and LENGTH", OPENED + READ, ("message 2 remap 0x2000 0x1001 0x1000",)),
        ("outside the scan", OPENED + SCAN, ("have 2 0x7000 0x1000 1",)),
        ("not above those of the line before", OPENED + SCAN, ("have 2 0x4000 0x1000 1",)),
        (NO_LINE, OPENED + SCAN, ("have 2 0x5000 0x1000 0",)),
        (NO_LINE, OPENED + SCAN, ("have 2 0x5000 0x1000 8",)),
        ("2 have lines, and there are 1", OPENED + SCAN, ("end 2 ok 2",)),
        ("time runs back, from 9 to 8", "", ("9 7 7 exit", "8 7 7 exit")),
        (NO_LINE, "", ("lost 0",)),
    )

    def test_reasons(self):
        for reason, before, lines in self.CASES:
            with self.subTest(reason=reason, lines=lines):
                given = log(*before, *lines)
                (line, said), = self.judged(given)[1]
                self.assertEqual(line, given.count(b"\n"))
                self.assertIn(reason, said)

    def test_one_wrong_line_is_named_once(self):
        self.is_wrong(log(*OPENED, "begin 2 wake 3:5 0x1000", "end 2 ok", "begin 3 close 3:5", "end 3 ok"), 9)

    def test_the_head(self):
        head = log().splitlines(keepends=True)
        for missing in range(1, 6):
            line, _ = self.judged(b"".join(head[:missing] + head[missing + 1:]) + b"0 7 7 exit\n")[1][0]
            self.assertEqual(line, missing + 1)
        for line, other in (
            (1, b"recorder test x\n"), (2, b"kernel Linux\n"), (3, b"page 1000\n"), (4, b"clock none\n"),
            (5, b"command\n"),
        ):
            self.is_wrong(b"".join(head[:line] + [other] + head[line + 1:]), line + 1)
        self.is_wrong(b"".join(head[:3]), 3)

    def test_no_log(self):
        for data in (b"", b"\n", b"uffdlog 2\n", b"\x00" * 100, b"int main(void)\n"):
            self.is_wrong(data, 1)

    def test_a_cut(self):
        """A line that is too long, and one without a line feed."""
        data = log() + b"1 7 7 started 1 " + b"x" * 10_000_000 + b"\n2 7 7 exit\n3 7 7 ex"
        self.is_wrong(data, 7, 9)


def changed(lines, seed):
    """A log with a change of one kind: a byte, a line or a cut. The kind says what was done."""
    made, chance = [*lines], random.Random(seed)
    at = chance.randrange(1, len(made))
    kind = ("byte", "bit", "without a line", "line twice", "lines swapped", "word", "cut", "bytes gone")[seed % 8]
    if kind in ("byte", "bit"):
        line, place = bytearray(made[at]), chance.randrange(len(made[at]) - 1)
        line[place] = chance.randrange(256) if kind == "byte" else line[place] ^ 1 << chance.randrange(8)
        made[at] = bytes(line)
    elif kind == "without a line":
        del made[at]
    elif kind == "line twice":
        made.insert(at, made[at])
    elif kind == "lines swapped":
        other = chance.randrange(1, len(made))
        made[at], made[other] = made[other], made[at]
    elif kind == "word":
        words = made[at].split()
        words[chance.randrange(len(words))] = chance.choice(made).split()[-1]
        made[at] = b" ".join(words) + b"\n"
    elif kind == "cut":
        made = [b"".join(made)[:chance.randrange(11, sum(map(len, made)))]]
    else:
        data, place = b"".join(made), chance.randrange(11, sum(map(len, made)))
        made = [data[:place] + data[place + chance.randrange(1, 60):]]
    return kind, b"".join(made)


def full_example():
    """The example of the page and more, so that each kind of line is there to be changed."""
    more = (
        "begin 8 open device 0", "end 8 ok 9:5", "begin 9 read 9:5 64", "message 9 remap 0x1000 0x3000 0x1000",
        "message 9 fork 10:7", "end 9 ok 2", "begin 10 dup 9:5 -", "end 10 ok 6", "begin 11 mremap 0x8000 1 0x2000 1 0",
        "end 11 ok 0xa000", "begin 12 fork", "end 12 ok 88", "dropped 9:6", "begin 13 zeropage 9:5 0x5000 0x1000 0",
        "end 13 EAGAIN -11", "begin 14 poll 9:5", "end 14 interrupted",
    )
    lines = [f"{5000 + 100 * time} 70 70 {line}\n".encode() for time, line in enumerate(more)]
    return common.example()[:-1] + lines + [
        b"9000 88 88 forked 70\n", b"9100 88 88 found 9:5\n", b"lost 2\n", b"9200 88 88 exit\n"
    ]


class Changed(Forms):
    def test_changes(self):
        """A changed log has a verdict, or named lines that it has."""
        lines, outcomes = full_example(), collections.Counter()
        self.assertEqual(self.judged(b"".join(lines))[1], [])
        for seed in range(SEEDS):
            kind, made = changed(lines, seed)
            with self.subTest(seed=seed, kind=kind):
                wrong = self.judged(made)[1]
                self.assertTrue(all(1 <= line <= made.count(b"\n") + 1 for line, _ in wrong))
                outcomes[kind, "wrong" if wrong else "right"] += 1
        # A reader that takes everything, or nothing, would be none.
        for kind in ("byte", "bit", "line twice", "lines swapped", "word"):
            self.assertGreater(outcomes[kind, "wrong"], SEEDS / 8 / 3, outcomes)
        self.assertGreater(sum(count for (_, what), count in outcomes.items() if what == "right"), 0)

    def test_a_line_that_is_missing(self):
        """Which lines of the example a reader does not miss: what no later line refers to."""
        lines = common.example()
        silent = [it for it in range(1, len(lines)) if not self.judged(b"".join(lines[:it] + lines[it + 1:]))[1]]
        self.assertEqual({lines[it].split()[3] for it in silent}, {b"started", b"exit", b"end"})


if __name__ == "__main__":
    unittest.main()
