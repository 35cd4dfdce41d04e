"""Services by their names: those of lostd, and those of other registries that stand for them."""
from __future__ import annotations

from typing import Dict, List, NamedTuple, Optional, Sequence

from maptools.texts import lowered, service_of

MOST_KEPT = 1024


class Alias(NamedTuple):
    """Services that begin with `theirs` are those that begin with `ours` behind. Those of a table have its name."""

    theirs: str
    ours: str
    table: str = ""


class Asked(NamedTuple):
    """A service as the client wrote it, its name behind where it can have one, and the alias that gave it."""

    text: str
    behind: Optional[str]
    alias: Optional[Alias] = None


def alias_of(text: str) -> Alias:
    """THEIRS=OURS; ValueError where the text is none."""
    theirs, equals, ours = text.partition("=")
    if not equals or not theirs or not ours:
        raise ValueError(f"{text!r} is neither nena nor THEIRS=OURS, such as urn:emergency:service:=urn:service:")
    return Alias(theirs, ours)


def begins(service: str, front: str) -> bool:
    """Whether a service begins with whole labels, in any case of letters."""
    if not lowered(service).startswith(lowered(front)):
        return False
    return len(service) == len(front) or not front[-1].isalnum() or service[len(front)] in ":."


class Services:
    """What clients call the services behind."""

    def __init__(self, aliases: Sequence[Alias] = ()) -> None:
        self.aliases: List[Alias] = list(aliases)
        self.kept: Dict[str, Asked] = {}

    def asked(self, text: str) -> Asked:
        """A service that a client wrote."""
        asked = self.kept.get(text)
        if asked is None:
            asked = self.looked_up(text)
            if len(self.kept) >= MOST_KEPT:
                self.kept.clear()
            self.kept[text] = asked
        return asked

    def looked_up(self, text: str) -> Asked:
        """The same, by the longest alias that fits; of two that are as long, by the one that is of no table."""
        fitting = [alias for alias in self.aliases if begins(text, alias.theirs)]
        if not fitting:
            return Asked(text, text if service_of(text) else None)
        alias = max(fitting, key=lambda one: (len(one.theirs), not one.table))
        behind = alias.ours + text[len(alias.theirs) :]
        return Asked(text, behind if service_of(behind) else None, alias)

    def told(self, service: str, alias: Optional[Alias]) -> str:
        """The name in front of a service of a reply: where the request came by an alias, by it or by one of its table."""
        if alias is None:
            return service
        kin = [one for one in self.aliases if one.table == alias.table] if alias.table else []
        for one in (alias, *sorted(kin, key=lambda other: -len(other.ours))):
            if begins(service, one.ours):
                return one.theirs + service[len(one.ours) :]
        return service
