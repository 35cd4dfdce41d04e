"""The services of NENA's registry (NENA-STA-010 and NENA-STA-006, from their texts as we know them), by the names of RFC 5031.

The registry calls them urn:nena:service:NAME; since the third edition of NENA-STA-010 they are urn:emergency:service:NAME.
"""
from __future__ import annotations

from typing import List

from gateway.services import Alias

SPACES = ("urn:nena:service:", "urn:emergency:service:")
OURS = "urn:service:"
# Names of the registry, and what they are called behind. Of several that are called the same, the first one is told.
NAMES = (
    ("sos", "sos"),
    ("sos.psap", "sos"),
    ("sos.level_2_esrp", "sos.level-2-esrp"),
    ("sos.level_3_esrp", "sos.level-3-esrp"),
    ("sos.call_taker", "sos.call-taker"),
    ("responder", "sos"),
    ("responder.psap", "sos"),
    ("responder.police", "sos.police"),
    ("responder.police.federal", "sos.police.federal"),
    ("responder.police.federal.atf", "sos.police.federal.atf"),
    ("responder.police.federal.cbp", "sos.police.federal.cbp"),
    ("responder.police.federal.dea", "sos.police.federal.dea"),
    ("responder.police.federal.fbi", "sos.police.federal.fbi"),
    ("responder.police.federal.ice", "sos.police.federal.ice"),
    ("responder.police.federal.marshal", "sos.police.federal.marshal"),
    ("responder.police.federal.pp", "sos.police.federal.pp"),
    ("responder.police.federal.rcmp", "sos.police.federal.rcmp"),
    ("responder.police.federal.usss", "sos.police.federal.usss"),
    ("responder.police.stateProvincial", "sos.police.stateprovincial"),
    ("responder.police.tribal", "sos.police.tribal"),
    ("responder.police.countyParish", "sos.police.countyparish"),
    ("responder.police.sheriff", "sos.police.sheriff"),
    ("responder.police.local", "sos.police.local"),
    ("responder.fire", "sos.fire"),
    ("responder.fire.forest", "sos.fire.forest"),
    ("responder.fire.airport", "sos.fire.airport"),
    ("responder.fire.military", "sos.fire.military"),
    ("responder.fire.private", "sos.fire.private"),
    ("responder.ems", "sos.ambulance"),
    ("responder.ems.tribal", "sos.ambulance.tribal"),
    ("responder.ems.countyParish", "sos.ambulance.countyparish"),
    ("responder.ems.local", "sos.ambulance.local"),
    ("responder.ems.private", "sos.ambulance.private"),
    ("responder.ems.military", "sos.ambulance.military"),
    ("responder.poison_control", "sos.poison"),
    ("responder.mountain_rescue", "sos.mountain"),
    ("responder.coast_guard", "sos.marine"),
)


def aliases() -> List[Alias]:
    """An alias for each name, in both spaces."""
    return [Alias(space + theirs, OURS + ours, space) for space in SPACES for theirs, ours in NAMES]


def table() -> str:
    """The table as lines of text."""
    width = max(len(theirs) for theirs, _ in NAMES)
    return "\n".join(f"  {theirs:{width}}  {OURS}{ours}" for theirs, ours in NAMES)
