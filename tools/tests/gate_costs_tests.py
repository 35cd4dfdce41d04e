"""checks/gate-costs, where it proves nothing: tables that are written and read, budgets, and the longest chain."""
from __future__ import annotations

import os
import subprocess
import tempfile
import unittest
from typing import List, Tuple

from tests.running import TOP

TABLE = """\
| Crate | Lines of code | Code | Tests | Edits tried | Edits |
|---|---|---|---|---|---|
| lost_spec | 400 | 2.0 |  | 8 | 2.5 |
| lost_geo | 300 | 1.5 | 0.8 | 14 | 1.0 |
| lost_grid | 100 | 0.7 |  |  |  |
"""


class GateCosts(unittest.TestCase):
    """Runs it over a table in a folder of its own."""

    def setUp(self) -> None:
        folder = tempfile.TemporaryDirectory()
        self.addCleanup(folder.cleanup)
        self.file = f"{folder.name}/costs.md"
        with open(self.file, "w", encoding="utf-8") as file:
            file.write(f"# Costs\n\n{TABLE}\nThe end.\n")

    def run_check(self, *words: str) -> Tuple[int, List[str]]:
        ran = subprocess.run([f"{TOP}/checks/gate-costs/run", *words], capture_output=True, timeout=30)
        return ran.returncode, (ran.stdout + ran.stderr).decode().splitlines()

    def test_each_crate_over_its_budget_is_named(self) -> None:
        expected = ["lost_spec: tests and edits 2.50 of 2.40 minutes", "lost_grid: code 0.70 of 0.60 minutes"]
        self.assertEqual(self.run_check("--budget", self.file), (1, [*expected, "2 of 3 crates are over budget"]))

    def test_all_within_their_budgets(self) -> None:
        with open(self.file, "w", encoding="utf-8") as file:
            file.write(TABLE.replace("2.5", "2.4").replace("0.7", "0.6"))
        self.assertEqual(self.run_check("--budget", self.file), (0, ["0 of 3 crates are over budget"]))

    def test_the_chain_is_of_the_dearest_crates(self) -> None:
        status, said = self.run_check("--chain", self.file)
        self.assertEqual(status, 0)
        chain = ["     2.0   48 %  lost_spec", "     1.5   36 %  lost_geo", "     0.7   17 %  lost_grid"]
        self.assertEqual(said[1:], [*chain, "     4.2  100 %  3 crates one after another, of 4.2 minutes of code in all"])

    def test_the_chain_by_lines_begins_with_the_definitions(self) -> None:
        status, said = self.run_check("--chain")
        self.assertEqual((status, said[0].split()[-1]), (0, "lost_spec"))

    def test_mistakes(self) -> None:
        for words in (["--budget", os.devnull], ["--chain", f"{self.file}.none"]):
            status, said = self.run_check(*words)
            self.assertEqual((status, len(said)), (1, 1), words)
        for words in (["lost"], ["--into", self.file], ["--gate", "--chain"], ["--functions", "lost"]):
            self.assertEqual(self.run_check(*words)[0], 2, words)
