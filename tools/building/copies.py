"""Copies of the sources, in which crates are proved side by side: in one folder rt proves one crate at a time."""
from __future__ import annotations

import contextlib
import fcntl
import os
import shutil
from typing import Iterator, List, Sequence

from building.faults import Fault
from building.sources import rows_of

# What rt keeps in a crate's out/: the library, and the proofs that a later check begins with.
LIBRARY, KEPT = "rlib", "incremental"
LEFT_OUT = ("out", "data", "must-fail")


def working_folder(top: str) -> str:
    """Where the copies of a checkout lie: in its git folder, where neither git nor `rt ci` looks for sources."""
    git = f"{top}/.git"
    if os.path.isfile(git):
        with open(git, encoding="utf-8") as file:
            git = os.path.join(top, file.read().strip()[len("gitdir: ") :])
    return f"{git}/lostd-build" if os.path.isdir(git) else f"{top}/out/lostd-build"


@contextlib.contextmanager
def locked(folder: str, fault: str) -> Iterator[None]:
    """Keeps other commands that lock the folder out; a fault where one has it."""
    opened = os.open(folder, os.O_RDONLY)
    try:
        fcntl.flock(opened, fcntl.LOCK_EX | fcntl.LOCK_NB)
        yield
    except BlockingIOError:
        raise Fault(fault) from None
    finally:
        os.close(opened)


def link_or_copy(one: str, other: str) -> None:
    """Gives a file a second name where it can: rt replaces the files of a library, and changes none."""
    try:
        os.link(one, other)
    except OSError:
        shutil.copyfile(one, other)


def link_or_copy_proof(one: str, other: str) -> None:
    """The same for kept work, of which rt replaces the proofs and may change the rest."""
    if one.endswith(".oantt"):
        link_or_copy(one, other)
    else:
        shutil.copyfile(one, other)


def put(one: str, other: str) -> None:
    """Moves a folder into the place of another."""
    os.makedirs(os.path.dirname(other), exist_ok=True)
    shutil.rmtree(other, ignore_errors=True)
    shutil.move(one, other)


def take_back(top: str, copy: str, name: str) -> None:
    """Moves what a copy made of a crate to the checkout, unless an rt is at work on it there."""
    made, own = f"{copy}/crates/{name}/out", f"{top}/crates/{name}"
    if not os.path.isdir(made) or not os.path.isdir(own):
        return
    with contextlib.suppress(Fault), locked(own, "an rt is at work there"):
        if os.path.isfile(f"{made}/{LIBRARY}/stamp"):
            put(f"{made}/{LIBRARY}", f"{own}/out/{LIBRARY}")
        if os.path.isdir(f"{made}/{KEPT}"):
            put(f"{made}/{KEPT}", f"{own}/out/{KEPT}")


def settle(top: str, place: str) -> None:
    """Moves to the checkout what its copies have made, and removes the copies: those of a build that was killed, too."""
    for number in sorted(os.listdir(place)) if os.path.isdir(place) else []:
        crates = f"{place}/{number}/crates"
        for name in sorted(os.listdir(crates)) if os.path.isdir(crates) else []:
            take_back(top, f"{place}/{number}", name)
    shutil.rmtree(place, ignore_errors=True)


class Copies:
    """The copies of some crates of a checkout."""

    def __init__(self, top: str, place: str, names: Sequence[str], count: int) -> None:
        self.top, self.names = top, names
        self.folders: List[str] = [f"{place}/{number}" for number in range(1, count + 1)]
        self.free: List[str] = list(reversed(self.folders))
        for number, folder in enumerate(self.folders):
            # (all from the first, so that an edit of the checkout meanwhile is in all or in none)
            self._copy(self.folders[0] if number else top, folder)
        for name in names:
            self._share(name, f"{top}/crates/{name}/out/{LIBRARY}", self.folders)

    def _copy(self, one: str, other: str) -> None:
        os.makedirs(f"{other}/crates")
        rows = rows_of(one)
        with open(f"{other}/crates.txt", "w", encoding="utf-8") as file:
            file.writelines(f"{rows[name]}\n" for name in self.names)
        for name in self.names:
            shutil.copytree(f"{one}/crates/{name}", f"{other}/crates/{name}", ignore=shutil.ignore_patterns(*LEFT_OUT))

    def _share(self, name: str, library: str, folders: Sequence[str]) -> None:
        """Links a finished library into copies."""
        for folder in folders if os.path.isfile(f"{library}/stamp") else []:
            to = f"{folder}/crates/{name}/out/{LIBRARY}"
            shutil.rmtree(to, ignore_errors=True)
            shutil.copytree(library, to, copy_function=link_or_copy)

    def begin(self, name: str) -> str:
        """A free copy, with the work that an earlier check of the crate kept."""
        folder = self.free.pop()
        kept, to = f"{self.top}/crates/{name}/out/{KEPT}", f"{folder}/crates/{name}/out/{KEPT}"
        if os.path.isdir(kept) and not os.path.isdir(to):
            shutil.copytree(kept, to, copy_function=link_or_copy_proof)
        return folder

    def end(self, name: str, folder: str) -> None:
        """Hands a finished crate to the other copies, and frees its own."""
        self._share(name, f"{folder}/crates/{name}/out/{LIBRARY}", [other for other in self.folders if other != folder])
        self.free.append(folder)
