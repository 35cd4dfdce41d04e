"""The log as a server's journal: each edit as it was published, and a commit for each row."""
from __future__ import annotations

import contextlib
import fcntl
import os
import tempfile
from typing import BinaryIO, Iterator, Optional

from maptools.feeding import journals
from maptools.feeding.journals import CLOSED, Kept
from maptools.feeding.log import Log
from maptools.feeding.standing import EMPTY, Standing

FILE = "log.jsonl"
# The line of a commit is shorter than this.
TAIL = 512


def add_commits(log: Log, standing: Standing, file: BinaryIO, until: Optional[int] = None) -> Standing:
    """Adds to a journal, up to its last gate, the commits after where it ends, perhaps only those up to an edition; where it ends then."""
    for commit in log.all_after(standing.edition):
        if until is not None and commit.edition > until:
            break
        journals.add(file, Kept(commit.desk_lines(), commit.standing()), commit.published)
        standing = commit.standing()
    journals.end(file)
    return standing


def write_journal(log: Log, file: BinaryIO, until: Optional[int] = None) -> Standing:
    """Writes the log as a journal, perhaps only the commits up to an edition; where a server stands that starts with it."""
    journals.begin(file)
    return add_commits(log, EMPTY, file, until)


def end_of(file: BinaryIO) -> Optional[Standing]:
    """Where a journal ends, by its last line; None where that is no whole line of a commit."""
    file.seek(0, os.SEEK_END)
    file.seek(max(0, file.tell() - TAIL))
    *_, line = file.read().splitlines(keepends=True) or [b""]
    try:
        return journals.standing_in(line) if line.endswith(CLOSED) else None
    except ValueError:
        return None


def refresh(log: Log, file: BinaryIO) -> Standing:
    """Adds to a journal what the log has more, or writes it anew where it is no beginning of the log."""
    standing = end_of(file)
    if standing is None or log.map_at(standing.edition) != standing.map:
        file.truncate(0)
        after = write_journal(log, file)
    elif standing == log.last():
        return standing
    else:
        # (a journal without its last gate is written anew, so it is no harm to end here)
        file.truncate(file.seek(0, os.SEEK_END) - len(CLOSED))
        after = add_commits(log, standing, file)
    file.flush()
    return after


@contextlib.contextmanager
def snapshot_in(log: Log, folder: Optional[str]) -> Iterator[str]:
    """The path of a file with the log, for as long as it is needed; one in a folder is kept, and nobody else writes to it meanwhile."""
    with contextlib.ExitStack() as stack:
        if folder is None:
            folder = stack.enter_context(tempfile.TemporaryDirectory(prefix="lost-feed-"))
        os.makedirs(folder, exist_ok=True)
        file = stack.enter_context(open(f"{folder}/{FILE}", "a+b"))
        fcntl.flock(file, fcntl.LOCK_EX)
        refresh(log, file)
        yield file.name
