"""Shows the log, and where each follower is."""
from __future__ import annotations

import argparse
import json
from typing import Any, Dict, List

from maptools.feeding.log import Log, Told
from maptools.feeding.standing import Standing
from maptools.plan import counted
from maptools.status_layout import printable

# A follower writes every few seconds: one that was silent for so long is gone.
MOST_SILENT = 30.0
HEADS = ("follower", "edition", "behind", "seen", "map")


def fault_of(told: Told, log: Log) -> str:
    """What is wrong with a follower or its server; empty where nothing is."""
    if told.fault:
        return told.fault
    if told.edition is not None and log.map_at(told.edition) != told.map:
        return f"its server holds edition {told.edition} with map {told.map}, which the log does not have"
    return f"it was silent for {told.seen:.0f} seconds" if told.seen > MOST_SILENT else ""


def behind_text(told: Told) -> str:
    """How far a follower is behind."""
    return f"{counted(told.commits, 'commit')}, {told.seconds or 0:.0f} s" if told.commits else "-"


def table(rows: List[List[str]]) -> List[str]:
    """Rows with columns that are as wide as they need."""
    widths = [max(map(len, column)) for column in zip(*rows)]
    return ["  ".join(cell.ljust(width) for cell, width in zip(row, widths)).rstrip() for row in rows]


def object_of(last: Standing, told: List[Told], faults: List[str]) -> Dict[str, Any]:
    """All as an object."""
    followers = [
        {"name": one.name, "server": one.server, "edition": one.edition, "map": one.map, "commitsBehind": one.commits,
         "secondsBehind": one.seconds or 0, "seenSeconds": one.seen, "fault": fault or None} for one, fault in zip(told, faults)
    ]  # fmt: skip
    return {"edition": last.edition, "map": last.map, "followers": followers}


def show_status(options: argparse.Namespace) -> int:
    """Shows it; the status."""
    log = Log(options.log)
    last, told = log.last(), log.followers()
    faults = [fault_of(one, log) for one in told]
    if options.json:
        print(json.dumps(object_of(last, told, faults)))
    else:
        print(f"log: {last.text()}")
        rows = [
            [printable(one.name), str(one.edition if one.edition is not None else "-"), behind_text(one), f"{one.seen:.0f} s ago", one.map or "-"]
            for one in told
        ]
        print("\n".join(table([list(HEADS), *rows]) if rows else ["no follower has written here yet"]))
        for one, fault in zip(told, faults):
            if fault:
                print(f"{printable(one.name)}: {fault}")
    return 3 if any(faults) else 0
