"""Where a server's journal and the log part."""
from __future__ import annotations

from itertools import islice, zip_longest
from typing import BinaryIO, Dict, List, Tuple

from maptools.feeding.journals import commits_in
from maptools.feeding.log import Log


def not_agreed(file: BinaryIO, maps: Dict[int, str]) -> Tuple[int, List[bytes]]:
    """The last edition before a journal has another map than the log, and the edits behind it, as far as they are needed.

    Commits of other sizes make editions that no commit of the log makes: then only a later edition can tell.
    """
    agreed, lines, last = 0, [], max(maps)  # type: int, List[bytes], int
    for kept in commits_in(file):
        lines += kept.lines
        edition = kept.standing.edition
        if maps.get(edition) == kept.standing.map:
            agreed, lines = edition, []
        elif edition in maps or edition > last:
            break
    return agreed, lines


def first_difference(file: BinaryIO, log: Log) -> int:
    """The first edition of a journal that is not the log's: edition N is the N-th edit. 0 where the log has all these edits."""
    agreed, lines = not_agreed(file, log.maps())
    held = islice((line for commit in log.all_after(agreed) for line in commit.desk_lines()), len(lines))
    for edition, (one, other) in enumerate(zip_longest(lines, held), agreed + 1):
        if one != other:
            return edition
    return 0
