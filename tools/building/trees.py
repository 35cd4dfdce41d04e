"""The ids that git gives to files and folders, read from the work tree itself."""
from __future__ import annotations

import hashlib
import os
import stat
from typing import List, NamedTuple, Tuple

# What .gitignore names.
IGNORED = ("out", "__pycache__")


def object_id(kind: str, body: bytes) -> bytes:
    """The id of an object."""
    return hashlib.sha1(f"{kind} {len(body)}\0".encode() + body).digest()


def file_of(path: str) -> Tuple[str, bytes]:
    """The mode and the id of a file or a link."""
    found = os.lstat(path)
    if stat.S_ISLNK(found.st_mode):
        return "120000", object_id("blob", os.fsencode(os.readlink(path)))
    with open(path, "rb") as file:
        return "100755" if found.st_mode & stat.S_IXUSR else "100644", object_id("blob", file.read())


def folder_of(path: str) -> bytes:
    """What git's object of a folder holds; nothing where it would keep none."""
    entries: List[Tuple[bytes, str, bytes]] = []
    for entry in os.scandir(path):
        name = os.fsencode(entry.name)
        if not entry.is_dir(follow_symlinks=False):
            mode, id_ = file_of(entry.path)
            entries.append((name, mode, id_))
        elif entry.name not in IGNORED:
            body = folder_of(entry.path)
            # (git orders a folder as if its name ended in a slash)
            entries += [(name + b"/", "40000", object_id("tree", body))] if body else []
    return b"".join(mode.encode() + b" " + name.rstrip(b"/") + b"\0" + id_ for name, mode, id_ in sorted(entries))


def tree_id(path: str) -> str:
    """The id of a folder as it stands, with what is not committed; that of an empty one where there is none."""
    return object_id("tree", folder_of(path) if os.path.isdir(path) else b"").hex()


def blob_id(path: str) -> str:
    """The id of a file as it stands."""
    return file_of(path)[1].hex()


class Trees(NamedTuple):
    """The sources that a package is made from."""

    crates: str
    crates_txt: str


def trees_of(top: str) -> Trees:
    """The sources as they stand in the work tree."""
    return Trees(tree_id(f"{top}/crates"), blob_id(f"{top}/crates.txt"))
