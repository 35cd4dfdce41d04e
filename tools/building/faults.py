"""What stops a build or a package, in one line that says what to do."""
from __future__ import annotations

import errno
import os
import sys
from typing import Callable

FULL = "the disk is full: free some space, and run this again"
NOT_ALLOWED = (errno.EACCES, errno.EPERM, errno.EROFS)
OWN_CLONE = "run it in a clone of your own"


class Fault(Exception):
    """What is wrong, and what to do."""


def is_full(error: OSError) -> bool:
    """Whether the disk is full, or the user's share of it. (A copy of a folder has the errors of its files as texts alone.)"""
    return any(os.strerror(number) in str(error) for number in (errno.ENOSPC, errno.EDQUOT))


def unwritten(path: str, error: OSError, remedy: str) -> Fault:
    """Why something could not be written; what to do is the remedy, unless the disk is full."""
    return Fault(FULL if is_full(error) else f"{path} cannot be written ({error.strerror}): {remedy}")


def status_of(command: str, work: Callable[[], int]) -> int:
    """The exit status of a command; a fault is said in one line, and gives 1."""
    try:
        return work()
    except Fault as fault:
        print(f"{command}: {fault}", file=sys.stderr)
        return 1
    except OSError as error:
        if error.errno not in NOT_ALLOWED and not is_full(error):
            raise
        print(f"{command}: {unwritten(error.filename, error, OWN_CLONE)}", file=sys.stderr)
        return 1
    except KeyboardInterrupt:
        print(f"{command}: stopped; run it again to go on from here", file=sys.stderr)
        return 130
