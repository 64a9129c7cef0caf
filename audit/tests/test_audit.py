"""What `uffd-audit` says of stored logs, of logs with planted faults, and of what is recorded here."""

import collections
import gzip
import json
import random
import re
import tempfile
import unittest
from pathlib import Path

import calls
import common
import planted
import written

LOGS = common.AUDIT / "logs"
SEEDS = 1 if common.QUICK else 5
# The findings of stored logs: pages of zeros that the guest of live gave back or never touched, and
# pages whose thread live wakes by a UFFDIO_ZEROPAGE that fails.
FINDINGS = {
    "qemu-push": set(),
    "qemu-preempt": set(),
    "qemu-snapshot": set(),
    "qemu-strace": set(),
    "stress-ng": set(),
    "live-handler": {"page-owed", "put-again", "present-before"},
}
# What their kernel did otherwise than the model: docs/LINUX.md names these logs.
DIFFERENCES = {
    "qemu-push": {"fault-taken-away", "register-without-events"},
    "qemu-preempt": {"register-without-events"},
    "qemu-snapshot": {"close", "register-without-events"},
    "qemu-strace": {"fault-taken-away", "register-without-events"},
    "stress-ng": {"register-without-events"},
    "live-handler": {"changing-longer", "fault-of-each-thread"},
}


def said_of(text, *more):
    """What the program writes of a log, with these arguments."""
    with tempfile.TemporaryDirectory() as folder:
        log = Path(folder) / "log"
        log.write_bytes(text)
        return common.audit(log, *more)


def audited(text):
    """The status of the program for a log, the rules that it names, and what it writes."""
    done = said_of(text)
    rules = collections.Counter(re.findall(r"^\S+:\d+: .* \[([a-z-]+)\]$", done.stdout, re.M))
    return done.returncode, rules, done.stdout + done.stderr


class Stored(unittest.TestCase):
    def test_stored_logs(self):
        """Each answer has a run, which is certified, and nothing is found but what is true and harms nobody."""
        for name, rules in FINDINGS.items():
            with self.subTest(name):
                log = gzip.decompress((LOGS / f"{name}.log.gz").read_bytes())
                status, found, said = audited(log)
                self.assertEqual((status, set(found)), (1 if rules else 0, rules), said[-500:])
                self.assertIn(", 0 for which no run was found, ", said)
                self.assertIn("\ncertified: ", said)
                differs = re.findall(r"^otherwise than the model: ([a-z-]+) ", said_of(log, "--explain").stdout, re.M)
                self.assertEqual(set(differs), DIFFERENCES[name])

    def test_json(self):
        """Each line is an object, and the cases are those of the text, each with its place."""
        found = calls.calls_of(str(LOGS / "qemu-push.log.gz"))
        planted.install_left_out(found, random.Random(1))
        log = written.text_of(str(LOGS / "qemu-push.log.gz"), found).encode()
        status, rules, _ = audited(log)
        done = said_of(log, "--json")
        *cases, summary = map(json.loads, done.stdout.splitlines())
        self.assertEqual((done.returncode, {it["rule"] for it in cases}), (status, set(rules)))
        for it in cases:
            self.assertEqual(it["severity"], "note" if it["rule"] == "page-owed" else "fault")
            self.assertTrue(
                it["line"] > 0 and it["object"] > 0 and it["process"] > 0 and int(it["address"], 16) % 4096 == 0, it
            )
        self.assertTrue(summary["certified"], summary)
        owed = sum(it["pages"] for it in cases if it["rule"] == "page-owed")
        self.assertTrue(0 < owed <= summary["missing"], summary)

    def test_trace_events(self):
        """The file is an array of events: one for each wait of the summary, and one for each finding."""
        log = gzip.decompress((LOGS / "live-handler.log.gz").read_bytes())
        with tempfile.TemporaryDirectory() as folder:
            file = Path(folder) / "events"
            *cases, summary = map(json.loads, said_of(log, "--json", "--trace-events", str(file)).stdout.splitlines())
            events = json.loads(file.read_text())
        waits = [it for it in events if it["ph"] == "X"]
        longest = round(1000 * max(it["dur"] for it in waits))
        self.assertEqual((len(waits), longest), (summary["waits"], summary["longest"]))
        named = collections.Counter(it["name"] for it in events if it["cat"] == "finding")
        self.assertEqual(named, collections.Counter(it["rule"] for it in cases))

    def test_planted_faults(self):
        for name, plant, rule in planted.PLANTED:
            log = LOGS / f"{name}.log.gz"
            for seed in range(SEEDS):
                with self.subTest(plant.__name__, log=name, seed=seed):
                    found = calls.calls_of(str(log))
                    plant(found, random.Random(seed))
                    _, rules, said = audited(written.text_of(str(log), found).encode())
                    self.assertTrue(rules[rule], said[-500:])


class Recorded(unittest.TestCase):
    def test_answers_of_this_kernel(self):
        """The kernel gives the answers that the rules have, and a run of the rules gives those that were recorded."""
        with tempfile.TemporaryDirectory() as folder:
            log = f"{folder}/log"
            done = common.run("record", "-o", log, common.compiled("answers"))
            if done.returncode == common.STATUS_CANNOT:
                raise unittest.SkipTest(done.stderr.strip())
            self.assertEqual((done.returncode, done.stdout.splitlines()[-1:]), (0, ["ok"]), done.stdout + done.stderr)
            said = common.audit(log)
        self.assertIn(", 0 for which no run was found, ", said.stdout)
        self.assertIn(said.returncode, (0, 1), said.stdout + said.stderr)

    def test_races(self):
        """An answer may be in the log before the end of the register or munmap that it needs."""
        for more in ([], ["--no-scan"]):
            with self.subTest(more), tempfile.TemporaryDirectory() as folder:
                log = f"{folder}/log"
                done = common.run("record", *more, "-o", log, common.compiled("races"), 30)
                if done.returncode == common.STATUS_CANNOT:
                    raise unittest.SkipTest(done.stderr.strip())
                self.assertEqual(done.returncode, 0, done.stderr)
                said = common.audit(log)
                self.assertIn(", 0 for which no run was found, ", said.stdout)

    def test_nothing_to_judge(self):
        """A program without a userfault object has no status 0."""
        with tempfile.TemporaryDirectory() as folder:
            log = f"{folder}/log"
            done = common.run("record", "-o", log, "true")
            self.assertEqual(done.returncode, 0, done.stderr)
            said = common.audit(log)
        self.assertEqual(said.returncode, 6, said.stdout + said.stderr)
        self.assertIn("not certified: nothing was judged: the log has no call\n", said.stdout)


if __name__ == "__main__":
    unittest.main()
