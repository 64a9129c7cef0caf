"""Programs that use a userfaultfd, recorded on this machine's kernel, and their logs checked."""

import collections
import os
import re
import shutil
import signal
import subprocess
import sys
import tempfile
import time
import unittest

import common
import recording
import uffdlog

RUNS = 1 if common.QUICK else 5


def entries(path):
    """The entries of a log, and what the audit says of wrong lines."""
    said = common.audit(path)
    return list(uffdlog.entries(path)), said.stdout.splitlines() if said.returncode == 2 else []


def why_no_userfaultfd():
    """What the kernel refuses to the test program: None where it runs."""
    done = subprocess.run([common.compiled("program")], capture_output=True, text=True, timeout=60)
    if done.returncode not in (0, common.STATUS_CANNOT):
        raise AssertionError(f"the test program fails by itself: {done.stderr}")
    return done.stderr.strip() if done.returncode else None


class Kernel(unittest.TestCase):
    @classmethod
    def setUpClass(cls):
        if reason := why_no_userfaultfd():
            raise unittest.SkipTest(reason)

    def setUp(self):
        self.folder = tempfile.TemporaryDirectory()
        self.addCleanup(self.folder.cleanup)
        self.log = f"{self.folder.name}/log"

    def record(self, *words, **more):
        return common.run("record", "-o", self.log, *words, **more)


class Preloaded(Kernel):
    def test_the_program(self):
        """Every run is recorded whole, and the program does what it does without."""
        for _ in range(RUNS):
            done = self.record(common.compiled("program"))
            self.assertEqual((done.returncode, done.stdout), (0, "ok\n"), done.stderr)
            found, wrong = entries(self.log)
            self.assertEqual(wrong, [])
            self.check_program(found)
            ended = {(entry.pid, entry.call.line) for entry in found if entry.kind == "end"}
            begun = {(entry.pid, entry.line) for entry in found if entry.kind == "begin"}
            self.assertEqual(begun - ended, set())

    def check_program(self, found):
        calls = collections.Counter(entry.call.word for entry in found if entry.kind == "end")
        for word in (
            "open", "api", "register", "scan", "copy", "zeropage", "wake", "writeprotect", "read", "poll", "nonblock",
            "dup", "close", "unregister", "mmap", "munmap", "mremap", "madvise", "fork",
        ):
            self.assertTrue(calls[word], word)
        messages = collections.Counter(entry.word for entry in found if entry.kind == "message")
        for word in ("fault", "remap", "remove", "unmap"):
            self.assertTrue(messages[word], messages)
        flags = {entry.values["FLAGS"] for entry in found if entry.kind == "message" and entry.word == "fault"}
        self.assertLessEqual({0, 1, 3}, flags)
        # The page that was stored before REGISTER is there, and it alone.
        runs = [entry.values for entry in found if entry.kind == "have"]
        self.assertEqual([(it["LENGTH"], it["BITS"]) for it in runs], [(4096, 1)])
        # One object is known in the parent, in a child that inherited it and in one that got it by a socket; two
        # children are forked. (the kernel may have refused an open before: the program then asks for user mode alone)
        first = next(
            entry.values["O"][0]
            for entry in found
            if entry.kind == "end" and entry.call.word == "open" and entry.word == "ok"
        )
        holders = {
            entry.pid for entry in found if entry.call and entry.call.word == "wake" and entry.call.object == first
        }
        self.assertEqual(len(holders), 3)
        self.assertEqual(sum(entry.kind == "forked" for entry in found), 2)
        self.assertEqual(sum(entry.kind == "exit" for entry in found), 3)
        # A child of clone(2) with the parent's memory does not begin in the log: it finds the object that this memory
        # is of.
        begun = {entry.pid for entry in found if entry.kind in ("started", "forked")}
        sharing = {entry.pid for entry in found if entry.kind == "begin" and entry.word == "madvise"} - begun
        self.assertEqual(
            [entry.values["O"][0] for entry in found if entry.kind == "found" and entry.pid in sharing], [first]
        )
        errnos = {entry.word for entry in found if entry.kind == "end" and entry.call.word == "copy"}
        self.assertLessEqual({"ok", "EFAULT", "EINVAL"}, errnos)

    def test_a_shell_and_its_children(self):
        """A script, and the programs that it starts and replaces."""
        program = common.compiled("program")
        done = self.record("sh", "-c", f"{program} && exec {program}")
        self.assertEqual((done.returncode, done.stdout), (0, "ok\nok\n"), done.stderr)
        found, wrong = entries(self.log)
        self.assertEqual(wrong, [])
        started = [entry.values["WORDS"][0] for entry in found if entry.kind == "started"]
        self.assertEqual(started, [b"sh", bytes(program), bytes(program)])

    def test_the_status_is_the_program_s(self):
        self.assertEqual(self.record("sh", "-c", "exit 3").returncode, 3)
        self.assertEqual(self.record("sh", "-c", "kill -9 $$").returncode, 137)
        _, wrong = entries(self.log)
        self.assertEqual(wrong, [])

    def test_a_killed_program_leaves_a_log(self):
        process = subprocess.Popen(
            [common.AUDIT / "record", "-o", self.log, common.compiled("cost"), "60"], stdout=subprocess.PIPE
        )
        self.addCleanup(process.stdout.close)
        started = None
        for _ in range(200):
            time.sleep(0.05)
            if os.path.exists(self.log) and os.path.getsize(self.log) > 100_000:
                with open(self.log, "rb") as file:
                    started = next((line for line in file if b" started " in line), None)
                break
        self.assertTrue(started)
        os.kill(int(started.split()[1]), signal.SIGKILL)
        self.assertEqual(process.wait(timeout=60), 137)
        found, wrong = entries(self.log)
        self.assertEqual(wrong, [])
        self.assertIn(found[-1].word, ("copy", "ok", "madvise"))

    def test_a_full_disk_is_in_the_log(self):
        """On a file system without room the program runs on, and lines that are lost are counted."""
        place = f"{self.folder.name}/small"
        os.mkdir(place)
        if subprocess.run(["mount", "-t", "tmpfs", "-o", "size=64k", "tmpfs", place], capture_output=True).returncode:
            self.skipTest("a small file system cannot be mounted here")
        self.addCleanup(subprocess.run, ["umount", place])
        self.log = f"{place}/log"
        done = self.record(common.compiled("program"))
        self.assertEqual(done.stdout, "ok\n", done.stderr)
        self.assertIn("No space left", done.stderr)
        self.assertEqual(done.returncode, 125)

    def test_closed_descriptors(self):
        """A program that closes all descriptors, as daemons do, is recorded on."""
        code = ("import os, ctypes\n"
                "os.closerange(3, 5000)\n"
                "libc = ctypes.CDLL(None)\n"
                f"fd = libc.syscall({323 if os.uname().machine == 'x86_64' else 282}, 0x80801)\n"
                "print(fd)\n"
                "os.close(fd)\n")
        done = self.record(sys.executable, "-c", code)
        self.assertEqual(done.returncode, 0, done.stderr)
        found, wrong = entries(self.log)
        self.assertEqual(wrong, [])
        self.assertEqual([entry.word for entry in found if entry.kind == "begin"][-2:], ["open", "close"])


class Refused(Kernel):
    def test_what_cannot_be_recorded(self):
        static = f"{self.folder.name}/static"
        with open(f"{static}.c", "w") as file:
            file.write("int main(void) { return 0; }\n")
        for words, reason in ((["/missing"], "no such program"), ([], "needed")):
            done = self.record(*words)
            self.assertNotEqual(done.returncode, 0)
            self.assertIn(reason, done.stderr)
        if subprocess.run(["cc", "-static", "-o", static, f"{static}.c"], capture_output=True).returncode == 0:
            done = self.record(static)
            self.assertEqual(done.returncode, 125)
            self.assertIn("it is a static program", done.stderr)

    def test_without_strace(self):
        """A clear error where strace is missing: the PATH has nothing."""
        done = common.run("record", "-o", self.log, "--strace", "/bin/true", env={"PATH": self.folder.name})
        self.assertEqual((done.returncode, done.stdout), (125, ""))
        self.assertIn("strace is needed", done.stderr)


class Traced(Kernel):
    def setUp(self):
        super().setUp()
        if common.QUICK:
            self.skipTest("by --quick")
        if not shutil.which("strace"):
            self.skipTest("strace is not there")
        if subprocess.run(["strace", "-o", "/dev/null", "true"], capture_output=True).returncode:
            self.skipTest("strace may not trace here")

    def judged(self):
        """How many calls the audit finds in what strace has written, each of them with a run."""
        said = common.audit(self.log)
        self.assertIn(", 0 for which no run was found, ", said.stdout, said.stdout[-500:] + said.stderr)
        return int(re.search(r"^(\d+) calls: ", said.stdout, re.M)[1])

    def test_cost_by_strace(self):
        """A run by strace has the calls of a run."""
        done = self.record("--strace", common.compiled("cost"), "0.01")
        self.assertEqual(done.returncode, 0, done.stderr)
        self.assertGreaterEqual(self.judged(), 1024)

    def test_attach(self):
        """A process that runs already: its object is of unknown origin."""
        process = subprocess.Popen([common.compiled("cost"), "1000"], stdout=subprocess.DEVNULL)
        self.addCleanup(process.wait)
        self.addCleanup(process.kill)
        time.sleep(0.3)
        recorder = subprocess.Popen(
            [common.AUDIT / "record", "-o", self.log, "--attach", str(process.pid)], stderr=subprocess.PIPE, text=True
        )
        for _ in range(200):
            if os.path.exists(self.log) and os.path.getsize(self.log) > 10_000:
                break
            time.sleep(0.05)
        recorder.send_signal(signal.SIGINT)
        said = recorder.communicate(timeout=60)[1]
        if re.search("ptrace|not permitted", said):
            self.skipTest(said.strip())
        self.assertIsNone(process.poll())
        self.assertGreater(self.judged(), 10)

    def test_threads_before(self):
        """A thread that is there when strace comes is one of the process; one that is made then is made by its line."""
        with open(self.log, "wb") as file:
            file.write(
                b"7 100.000001 close(3) = 0 <0.000001>\n8 100.000002 clone3({flags=CLONE_THREAD}, 88 <unfinished ...>\n"
                b"8 100.000003 <... clone3 resumed>) = 9 <0.000001>\n9 100.000004 close(4) = 0 <0.000001>\n"
            )
        line, = recording.threads_before(self.log, 7)
        self.assertRegex(line, b"^7 100.000001 clone.*CLONE_VM.*CLONE_FILES.*CLONE_THREAD.* = 8 <")


if __name__ == "__main__":
    unittest.main()
