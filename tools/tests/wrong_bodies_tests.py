"""The must-fail edits of the gate and those of checks/wrong-bodies: each applies to the code as it stands."""
from __future__ import annotations

import glob
import os
import re
import subprocess
import tempfile
import unittest
from typing import Dict, List, Optional, Tuple

from tests.running import TOP

CHECK = f"{TOP}/checks/wrong-bodies/run"
NAME = re.compile(r"[a-z0-9]+(-[a-z0-9]+)*\.edit")


def edits() -> List[Tuple[str, str]]:
    """The path of each edit, and its crate."""
    gate = [(path, path.split("/")[-3]) for path in glob.glob(f"{TOP}/crates/*/must-fail/*")]
    beside = [(path, path.split("/")[-2]) for path in glob.glob(f"{TOP}/checks/wrong-bodies/*/*")]
    return sorted(gate + beside)


def pair_fault(text: str, old: Optional[str], new: str) -> Optional[str]:
    """What is wrong with a pair of texts over the text of a file."""
    if not old:
        return "a new: line has no old: line before it"
    if text.count(old) != 1:
        return f"an old: text stands {text.count(old)} times: {old}"
    return "an old: and a new: text are the same" if old == new else None


def edit_fault(edit: str, folder: str) -> Optional[str]:
    """Why an edit does not apply to the crate in a folder; None where it does."""
    path, old, pairs = "", None, 0  # type: str, Optional[str], int
    texts: Dict[str, str] = {}
    for line in edit.splitlines():
        word, _, rest = line.partition(": ")
        if word == "file":
            path = rest
            if not re.fullmatch(r"src/[\w/]+\.rt", path) or not os.path.isfile(f"{folder}/{path}"):
                return f"there is no code in {path}"
            if path not in texts:
                with open(f"{folder}/{path}", encoding="utf-8") as file:
                    texts[path] = file.read()
        elif word == "old" and path:
            old = rest
        elif word in ("new", "new:") and path:
            fault = pair_fault(texts[path], old, rest)
            if fault:
                return fault
            texts[path], old, pairs = texts[path].replace(str(old), rest), None, pairs + 1
        elif line:
            return f"a line is none of file:, old: and new: {line}"
    return None if pairs and old is None else "it ends before a new: line"


class Edits(unittest.TestCase):
    """Each edit of both places."""

    def test_each_applies(self) -> None:
        self.assertGreater(len(edits()), 300)
        for path, crate in edits():
            with open(path, encoding="utf-8") as file:
                self.assertIsNone(edit_fault(file.read(), f"{TOP}/crates/{crate}"), os.path.relpath(path, TOP))

    def test_each_has_a_name_of_words_and_hyphens_that_its_crate_has_once(self) -> None:
        names = [(crate, os.path.basename(path)) for path, crate in edits()]
        for crate, name in names:
            self.assertRegex(name, rf"^{NAME.pattern}$", crate)
        self.assertEqual(len(set(names)), len(names))

    def test_what_does_not_apply_is_noticed(self) -> None:
        with tempfile.TemporaryDirectory() as folder:
            os.mkdir(f"{folder}/src")
            with open(f"{folder}/src/point.rt", "w", encoding="utf-8") as file:
                file.write("if a < b { a } else { b }\n")
            good = "file: src/point.rt\nold: a < b\nnew: a <= b\nold: <=\nnew: >\n"
            self.assertIsNone(edit_fault(good, folder))
            self.assertIsNone(edit_fault("file: src/point.rt\nold:  { a }\nnew: \n", folder))
            for edit in (
                "",
                "file: src/point.rt\n",
                "file: src/ring.rt\nold: a < b\nnew: b < a\n",
                "file: specs/Point.antt\nold: a\nnew: b\n",
                "file: src/point.rt\nold: a > b\nnew: b < a\n",
                "file: src/point.rt\nold: a\nnew: c\n",
                "file: src/point.rt\nold: a < b\nnew: a < b\n",
                "file: src/point.rt\nold: a < b\n",
                "file: src/point.rt\nnew: a < b\n",
                good + "old: a < b\nnew: b < a\n",
                good + "else: b\n",
            ):
                self.assertIsNotNone(edit_fault(edit, folder), edit)


class CommandLine(unittest.TestCase):
    """checks/wrong-bodies/run, where it tries nothing."""

    def run_check(self, *words: str) -> Tuple[int, str, str]:
        ran = subprocess.run([CHECK, *words], capture_output=True, timeout=30)
        return ran.returncode, ran.stdout.decode(), ran.stderr.decode()

    def test_help(self) -> None:
        status, said, complained = self.run_check("--help")
        self.assertEqual((status, complained), (0, ""))
        self.assertIn("checks/wrong-bodies/run CRATE..", said)

    def test_mistakes_are_one_line_each(self) -> None:
        for word, said in (
            ("lost", "crates.txt has no crate lost"),
            ("lostd", "checks/wrong-bodies has no wrong body of lostd"),
            ("--all", "there is no option --all: see --help"),
        ):
            self.assertEqual(self.run_check(word), (2, "", f"wrong-bodies: {said}\n"))
