"""Command lines of the program: what it prints, and its status. Skipped where no program is built."""
from __future__ import annotations

import os
import pty
import subprocess
import tempfile
import unittest
from typing import List, Tuple

from tests.running import lostd, read

MARKS = "$<@=>~!"
# Words that are not spelled as they are.
SPELLED = {"''": b"", r"\xff": b"\xff"}


def behind(row: str, mark: str) -> List[str]:
    """The texts behind a mark in the lines of a row."""
    return [line[2:] for line in row.splitlines() if line.startswith(f"{mark} ")]


def words_of(row: str) -> List[bytes]:
    """The words of a row's command line."""
    return [SPELLED.get(word, word.encode()) for word in behind(row, "$")[0].split(" ")]


def given_by(row: str) -> bytes:
    """What a row writes to standard input."""
    counts = [int(special.split(" ")[0]) for special in behind(row, "@") if special.endswith(" lines")]
    return b"\n" * sum(counts) + "".join(f"{line}\n" for line in behind(row, "<")).encode()


def shown_on_a_terminal(terminal: int) -> str:
    """What was written to a terminal that nobody writes to any more."""
    shown = b""
    while True:
        try:
            piece = os.read(terminal, 65_536)
        except OSError:
            return shown.decode().replace("\r\n", "\n")
        shown += piece


def run(row: str) -> Tuple[int, str, str]:
    """The status of a row's command line, what it prints, and what it says on standard error."""
    specials = behind(row, "@")
    terminal, errors = pty.openpty() if "terminal" in specials else (-1, -1)
    with tempfile.TemporaryFile() as lines, tempfile.TemporaryFile() as output, tempfile.TemporaryFile() as said:
        lines.write(given_by(row))
        lines.seek(0)
        folder = os.open("/", os.O_RDONLY)
        with open("/dev/full", "wb") as full:
            ran = subprocess.run(
                words_of(row),
                executable=lostd(),
                stdin=folder if "unread" in specials else lines,
                stdout=full if "full" in specials else output,
                stderr=errors if terminal >= 0 else said,
                timeout=60,
            )
        os.close(folder)
        output.seek(0)
        said.seek(0)
        shown = said.read().decode()
        if terminal >= 0:
            os.close(errors)
            shown = shown_on_a_terminal(terminal)
            os.close(terminal)
        return ran.returncode, output.read().decode(), shown


@unittest.skipUnless(lostd(), "no program is built")
class CommandTests(unittest.TestCase):
    """Each row of the table."""

    def test_rows(self) -> None:
        rows = read("command.rows").rstrip("\n").split("\n\n")[1:]
        self.assertEqual(len(rows), 81)
        for row in rows:
            with self.subTest(row):
                self.assertTrue(all(line[0] in MARKS and line[1] == " " for line in row.splitlines()))
                status, output, errors = run(row)
                self.assertEqual(status, int(behind(row, "=")[0]))
                self.assertEqual(errors, "".join(f"{line}\n" for line in behind(row, "!")))
                texts = behind(row, "~")
                for text in texts:
                    self.assertIn(text, output)
                if not texts:
                    self.assertEqual(output, "".join(f"{line}\n" for line in behind(row, ">")))
