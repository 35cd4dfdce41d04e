"""The checks beside the gate: CONTRIBUTING has each of them, and checks/run lists each of them once."""
from __future__ import annotations

import glob
import os
import re
import subprocess
import unittest
from typing import List, Tuple

from tests.running import TOP


def names() -> List[str]:
    """The folders of checks/ that are a check, or say how one is done."""
    found = {os.path.basename(os.path.dirname(path)) for name in ("run", "README.md") for path in glob.glob(f"{TOP}/checks/*/{name}")}
    return sorted(found)


def listed(*words: str) -> Tuple[int, str, str]:
    """The status of checks/run, and what it prints and says."""
    ran = subprocess.run([f"{TOP}/checks/run", *words], capture_output=True, text=True, timeout=60)
    return ran.returncode, ran.stdout, ran.stderr


class Checks(unittest.TestCase):
    """What there is, and what is said of it."""

    def test_contributing_has_each_check_and_no_other(self) -> None:
        with open(f"{TOP}/CONTRIBUTING.md", encoding="utf-8") as file:
            text = file.read()
        table = text.partition("Checks beside the gate")[2].partition("**The gate decides.**")[0]
        self.assertEqual(sorted(re.findall(r"^\| \[?`checks/([a-z-]+)", table, re.MULTILINE)), names())

    def test_each_check_is_listed_once_and_says_what_it_does(self) -> None:
        status, output, said = listed()
        self.assertEqual((status, said), (0, ""))
        rows = re.findall(r"^    checks/([a-z-]+)/\S+ {2,}(\S.*)$", output, re.MULTILINE)
        self.assertEqual(sorted(name for name, _ in rows), names())

    def test_a_group_alone(self) -> None:
        status, output, _ = listed("memory")
        self.assertEqual((status, output.splitlines()[0]), (0, "memory"))
        self.assertIn("checks/resident-memory/run", output)
        self.assertNotIn("checks/oracle/run", output)
        self.assertEqual(listed("sped"), (2, "", "checks/run: give one of speed, memory, behaviour, proof, or nothing\n"))
