"""What each check that measures refuses before it measures anything."""
from __future__ import annotations

import subprocess
import unittest
from typing import List, Sequence, Tuple

from tests.running import TOP


class Refusing(unittest.TestCase):
    """Runs a check where it measures nothing."""

    # The command below checks/, and words that it does not take.
    check = ""
    mistakes: Sequence[List[str]] = ()

    def run_check(self, *words: str, front: Tuple[str, ...] = ()) -> Tuple[int, List[str]]:
        ran = subprocess.run([*front, f"{TOP}/checks/{self.check}", *words], capture_output=True, text=True, timeout=60)
        return ran.returncode, ran.stderr.splitlines()

    def test_mistakes(self) -> None:
        for words in self.mistakes:
            status, said = self.run_check(*words)
            self.assertEqual((status, len(said)), (2, 1), said)

    def test_no_program(self) -> None:
        status, said = self.run_check("--lostd", f"{TOP}/README.md")
        self.assertEqual((status, len(said)), (1, 1), said)
