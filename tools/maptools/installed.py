"""Where the tools are: in a checkout, or installed with the program, and of which version they are."""
from __future__ import annotations

import argparse
import os
from typing import Any, Dict, Optional

# tools/ of a checkout, or lib/lostd where ./install or the package put them.
TOOLS = os.path.dirname(os.path.dirname(os.path.realpath(__file__)))
TOP = os.path.dirname(TOOLS)
IS_CHECKOUT = os.path.isdir(f"{TOOLS}/building")
SHORT_ID = 12


def program_at_hand() -> Optional[str]:
    """The path of the program lostd: the one that ./lostd would run, or the one installed with the tools; None where there is none."""
    if IS_CHECKOUT:
        from building.programs import at_hand

        return at_hand(TOP)
    path = f"{os.path.dirname(TOP)}/bin/lostd"
    return path if os.access(path, os.X_OK) else None


def version_rows() -> Dict[str, str]:
    """The version, and the ids of the sources, by name."""
    if IS_CHECKOUT:
        from building.trees import trees_of
        from building.versions import version_of

        text = version_of(TOP, trees_of(TOP).crates).text()
    else:
        with open(f"{TOOLS}/VERSION", encoding="utf-8") as file:
            text = file.read()
    return dict(line.split(": ", 1) for line in text.splitlines())


class ShowVersion(argparse.Action):
    """Prints the version and ends."""

    def __call__(self, words: argparse.ArgumentParser, *_: Any, **__: Any) -> None:
        rows = version_rows()
        ids = ", ".join(f"{name} {rows[name][:SHORT_ID]}" for name in ("tools", "crates"))
        print(f"{words.prog} {rows['version']} ({ids})")
        words.exit(0)


def add_version(words: argparse.ArgumentParser) -> None:
    """Takes --version."""
    words.add_argument("--version", action=ShowVersion, nargs=0, help="show the version and the ids that git gives to its sources, and exit")
