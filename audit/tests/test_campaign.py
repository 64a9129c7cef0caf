"""`audit/campaign`: its verdicts on one program that is right, and on one in which a fault is planted."""

import os

import common
import test_record


class Campaign(test_record.Kernel):
    def campaign(self, *options):
        named = os.environ.get("AUDIT_PROGRAM")
        done = common.run("campaign", "--seeds", "1:1", *(["--program", named] if named else []), *options)
        return done.returncode, done.stdout + done.stderr

    def test_a_right_program(self):
        status, said = self.campaign("--quick", "--only", "sigbus")
        self.assertEqual((status, "\n| sigbus | 1 | " in said), (0, True), said)

    def test_a_planted_fault(self):
        """It is named, and where it cannot be the status says so."""
        status, said = self.campaign("--wrong", "--only", "wrong=skip")
        self.assertEqual((status, "wrong=skip | 1 | 1 | " in said), (0, True), said)
        status, said = self.campaign("--wrong", "--only", "wrong=no-such-fault")
        self.assertEqual(status, 1, said)
