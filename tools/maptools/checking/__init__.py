"""Looks for the mistakes of a map, in the terms of what a caller would get.

`check(mappings, options)` is the call, a list of `Finding` what it gives. It needs Debian's python3-shapely, which is only
read when it is called.
"""
from __future__ import annotations

from typing import Any, Dict, Iterable, List

from maptools.checking.findings import KINDS, SEVERITIES, Finding, counts_of
from maptools.checking.options import Options

__all__ = ["KINDS", "Finding", "Options", "SEVERITIES", "check", "counts_of"]


def check(mappings: Iterable[Dict[str, Any]], options: Options = Options()) -> List[Finding]:
    """The findings about mappings, each as the value of a publish line; the worst first. ValueError where one is none."""
    from maptools.checking.checks import check_mappings

    return check_mappings(mappings, options)
