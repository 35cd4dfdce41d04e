"""The words of a command line."""
from __future__ import annotations

import argparse
from typing import Optional

from maptools.command_line import CommandLine


class Words(CommandLine):
    """The command line of what builds, packs and installs."""

    def __init__(self, command: str, help_text: Optional[str]) -> None:
        super().__init__(prog=command, description=help_text)

    def add_jobs(self) -> None:
        """Takes --jobs N."""
        self.add_argument("--jobs", metavar="N", type=jobs_of, help="use at most this many processors")


def jobs_of(text: str) -> int:
    """A number of jobs."""
    if not (text.isascii() and text.isdigit() and int(text)):
        raise argparse.ArgumentTypeError(f"{text!r} is not a whole number of at least 1")
    return int(text)
