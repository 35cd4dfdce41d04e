"""The version, which stands in the program's sources, and the ids of what was made from them."""
from __future__ import annotations

import re
from typing import NamedTuple

from building.faults import Fault
from building.trees import tree_id

STANDS_IN = "crates/lost_status/src/status.rt"
VERSION = re.compile(r'pub const VERSION: &str = "([0-9][0-9A-Za-z.~+-]*)";')


class Version(NamedTuple):
    """A version, and the ids that git gives to the folders tools/ and crates/ (empty if the program's sources are not known)."""

    number: str
    tools: str
    crates: str

    def text(self) -> str:
        """As it stands in the file VERSION beside installed tools."""
        return f"version: {self.number}\ntools: {self.tools}\ncrates: {self.crates or 'unknown'}\n"


def number_of(top: str) -> str:
    """The version of a checkout."""
    with open(f"{top}/{STANDS_IN}", encoding="utf-8") as file:
        found = VERSION.search(file.read())
    if not found:
        raise Fault(f"{STANDS_IN} has no version")
    return found[1]


def version_of(top: str, crates: str) -> Version:
    """The version of a checkout, with the id of the sources of its program."""
    return Version(number_of(top), tree_id(f"{top}/tools"), crates)
