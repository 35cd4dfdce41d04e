"""Makes what answers requests, as the command line says."""
from __future__ import annotations

import argparse
from typing import TYPE_CHECKING, Optional

from gateway import requests
from gateway.answering import Answering, Manner, in_a_thread
from gateway.pool import Pool
from gateway.services import Services

if TYPE_CHECKING:
    from gateway.covering import Covering

COVERING = ("largest", "all")


def covers_areas(options: argparse.Namespace) -> bool:
    """Whether areas get what covers them."""
    return options.area in COVERING


def lacks_shapely(options: argparse.Namespace) -> bool:
    """Whether the package is missing that is needed for areas."""
    if not covers_areas(options):
        return False
    try:
        import shapely.geometry  # pylint: disable=unused-import
    except (ImportError, OSError):
        return True
    return False


def answering_of(options: argparse.Namespace, pool: Pool) -> Answering:
    """What answers requests by the servers of a pool."""
    areas = requests.BY_COVER if covers_areas(options) else options.area
    manner = Manner(requests.Manner(areas, Services(options.alias)), not options.no_made_up_names, options.name)
    return Answering(pool, manner, covering_of(options, pool))


def covering_of(options: argparse.Namespace, pool: Pool) -> Optional[Covering]:
    """What asks about areas."""
    if not covers_areas(options):
        return None
    from gateway.covering import Choice, Covering

    return Covering(pool, Choice(options.area, options.area_least), in_a_thread)
