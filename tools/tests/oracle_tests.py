"""Random sessions against a second reading of the rules, checks/oracle. Skipped where no program is built."""
from __future__ import annotations

import os
import subprocess
import unittest
from typing import List

from tests.running import TOP, lostd

# As many as make each refusal, error and warning come.
SESSIONS = "600"
LIMITED = "300"


@unittest.skipUnless(lostd(), "no program is built")
class OracleTests(unittest.TestCase):
    """The program answers each session as the oracle does, byte for byte."""

    def compare(self, words: List[str]) -> None:
        """Runs a comparison, which says itself what differs."""
        ran = subprocess.run([f"{TOP}/checks/oracle/run", *words], stdout=subprocess.PIPE, stderr=subprocess.STDOUT, timeout=600)
        said = ran.stdout.decode()
        self.assertEqual(ran.returncode, 0, said)
        self.assertRegex(said, r"\n[1-9][0-9]* passed, 0 failed\n$")

    def test_sessions(self) -> None:
        self.compare(["--sessions", SESSIONS])

    @unittest.skipUnless(os.access(f"{TOP}/crates/rows_gate/out/rows_gate", os.X_OK), "rows_gate is not built")
    def test_small_limits(self) -> None:
        """A desk that may hold, accept and remember little: each of its limits is reached."""
        self.compare(["--limits", "--sessions", LIMITED])
