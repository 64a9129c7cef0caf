"""Sums of pages: `audit/record --sums`, and what `audit/sums` says of them."""

import re
import subprocess
import tempfile
import unittest
from pathlib import Path

import common
import test_record

PAGE = 4096
MASK = (1 << 64) - 1
FACTOR = 0x9e3779b97f4a7c15
PROGRAMS = common.OUT / "programs"
HEAD = (
    "uffdlog 1\nrecorder preload 1\nkernel Linux 6.18.44 x86_64\npage 4096\nclock thread\ncommand -\n"
    "1 70 70 found 8:4\n"
)


def sum_of_words(word):
    """The sum of a page each of whose words is this one."""
    found = 0
    for _ in range(PAGE // 8):
        found = (found * FACTOR + word) & MASK
    return found


def compared(log, *more):
    done = common.run("sums", f"{log}.sums", *more)
    return done.returncode, done.stdout + done.stderr


class Written(unittest.TestCase):
    """Logs of a few lines."""

    def setUp(self):
        self.folder = tempfile.TemporaryDirectory()
        self.addCleanup(self.folder.cleanup)
        self.log = Path(self.folder.name) / "log"

    def compare(self, lines, sums):
        self.log.write_text(HEAD + "".join(f"1 70 {line}\n" for line in lines))
        Path(f"{self.log}.sums").write_text("".join(f"70 {line}\n" for line in sums))
        return compared(self.log)

    def test_two_sums(self):
        """Of two copies to a page the second is named if its bytes are others, also where it found the page there."""
        first = ["71 begin 1 copy 8:4 0x10000 0x50000 0x1000 0x0", "71 end 1 ok 4096"]
        second = ["72 begin 2 copy 8:4 0x10000 0x60000 0x1000 0x0"]
        for answer in ("ok 4096", "EEXIST -17"):
            log = [*first, *second, f"72 end 2 {answer}"]
            status, said = self.compare(log, ["71 1 0x10000 0x5", "72 2 0x10000 0x6"])
            self.assertEqual(status, 1, said)
            self.assertIn("copy at 0x10000, thread 72 of process 70: sum 0x6, and 0x5 by line 8", said)
            self.assertEqual(self.compare(log, ["71 1 0x10000 0x5", "72 2 0x10000 0x5"])[0], 0)

    def test_given_back(self):
        """A page that was given back, or is being given back, may get other bytes."""
        copies = [f"71 {kind} {number} {rest}" for number in (1, 2) for kind, rest in
                  (("begin", "copy 8:4 0x10000 0x50000 0x1000 0x0"), ("end", "ok 4096"))]
        begin, end = "73 begin 9 madvise 0x10000 0x1000 0x4", "73 end 9 ok"
        sums = ["71 1 0x10000 0x5", "71 2 0x10000 0x6"]
        for log in ([*copies[:2], begin, end, *copies[2:]], [begin, *copies[:2], *copies[2:], end]):
            self.assertEqual(self.compare(log, sums)[0], 0)
        self.assertEqual(self.compare([begin.replace("0x4", "0xe"), end, *copies], sums)[0], 1)

    def test_no_sum(self):
        """A copy that has no sum is counted, and a file that is none has a status of its own."""
        lines = ["71 begin 1 copy 8:4 0x10000 0x50000 0x2000 0x0", "71 end 1 ok 8192"]
        status, said = self.compare(lines, ["71 1 0x10000 0x5"])
        self.assertEqual((status, "1 copies without all of their sums" in said), (2, True), said)
        self.assertEqual(self.compare([], ["a b"])[0], 2)

    def test_sums_of_a_file(self):
        file = Path(self.folder.name) / "memory"
        file.write_bytes(b"\1\0\0\0\0\0\0\0" * 512 + b"\2")
        done = common.run("sums", "--of", file, "0x7000")
        lines = [f"0x7000 {sum_of_words(1):#x}", f"0x8000 {2 * pow(FACTOR, 511, MASK + 1) & MASK:#x}"]
        self.assertEqual(done.stdout.splitlines(), lines)


class Recorded(test_record.Kernel):
    def setUp(self):
        super().setUp()
        subprocess.run(["make", "-s", "-C", common.AUDIT / "programs", "../out/programs/firecracker"], check=True)

    def made(self, *options):
        """Records a microVM and writes the sums of its snapshot. Returns the status of the comparison and its text."""
        words = ["pages=64", "threads=2", "touches=200", "seconds=50", *options]
        done = self.record("--sums", PROGRAMS / "firecracker", *words)
        self.assertEqual(done.returncode, 0, done.stderr)
        start = int(re.search(r"register \S+ (0x[0-9a-f]+)", Path(self.log).read_text())[1], 16)
        source = Path(f"{self.log}.source")
        source.write_text("".join(f"{start + i * PAGE} {sum_of_words((i + 1) * FACTOR & MASK)}\n" for i in range(64)))
        return compared(self.log, source)

    def test_a_wrong_copy(self):
        """The bytes of another page are named where they were put, and nothing else."""
        status, said = self.made()
        self.assertEqual(status, 0, said)
        for seed in range(1, 1 + test_record.RUNS):
            status, said = self.made("wrong=bytes", f"seed={seed}")
            self.assertEqual((status, said.count("and the source has")), (1, 1), said)

    def test_bytes_after_remove(self):
        """A handler that ignores REMOVE has the bytes of before come back; one that puts zeros has no note."""
        options = ("touches=1000", "balloon=200", "keep=1")
        self.assertEqual(self.made(*options)[1].count("after REMOVE"), 0)
        status, said = self.made(*options, "wrong=stale")
        self.assertEqual((status, "bytes that are not zeros, after REMOVE of line" in said), (0, True), said)


if __name__ == "__main__":
    unittest.main()
