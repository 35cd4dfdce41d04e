"""The files that ./install and the Debian package put below a prefix: the program, the tools, manual pages, completions."""
from __future__ import annotations

import os
from concurrent.futures import ThreadPoolExecutor
from typing import Dict, Iterator, List, NamedTuple, Union

from building.completions import SHELLS
from building.files import write_file
from building.helps import Command, command_of
from building.manual import manual_of
from building.versions import Version

PROGRAM = "lostd"
OWN = "lib/lostd"
VERSION_FILE = f"{OWN}/VERSION"
# What the tools are made of, beside themselves.
PARTS = ("gateway", "maptools")
# Executable, but for who works on the sources.
NOT_INSTALLED = ("test",)
LEFT_OUT = "__pycache__"


class File(NamedTuple):
    """A file: what it holds, and its mode."""

    body: bytes
    mode: int = 0o644


# What stands at each place: a file, or a link to this target.
Files = Dict[str, Union[File, str]]


def body_of(path: str) -> bytes:
    """What a file holds."""
    with open(path, "rb") as file:
        return file.read()


def tools_of(top: str) -> List[str]:
    """The names of the tools."""
    names = sorted(entry.name for entry in os.scandir(f"{top}/tools") if entry.is_file() and os.access(entry.path, os.X_OK))
    return [name for name in names if name not in NOT_INSTALLED]


def parts_of(top: str) -> Iterator[str]:
    """The files that the tools are made of, below tools/."""
    for part in PARTS:
        for folder, below, names in os.walk(f"{top}/tools/{part}"):
            below[:] = [name for name in below if name != LEFT_OUT]
            yield from (os.path.relpath(f"{folder}/{name}", f"{top}/tools") for name in names)


def tool_files(top: str, version: Version) -> Files:
    """The tools, what they are made of, and links to them."""
    files: Files = {f"{OWN}/{name}": File(body_of(f"{top}/tools/{name}"), 0o755) for name in tools_of(top)}
    files.update({f"{OWN}/{name}": File(body_of(f"{top}/tools/{name}")) for name in parts_of(top)})
    files.update({f"bin/{name}": f"../{OWN}/{name}" for name in tools_of(top)})
    files[VERSION_FILE] = File(version.text().encode())
    return files


def write_tree(folder: str, files: Files) -> None:
    """Writes files below a folder, each whole or not at all."""
    for place, file in files.items():
        path = f"{folder}/{place}"
        if isinstance(file, File):
            write_file(path, file.body, file.mode)
            continue
        os.makedirs(os.path.dirname(path), exist_ok=True)
        if os.path.lexists(path):
            os.remove(path)
        os.symlink(file, path)


def page_of(name: str) -> str:
    """Where the manual page of a command stands."""
    return f"share/man/man1/{name}.1"


def commands_of(top: str, program: str) -> List[Command]:
    """The program and the tools, which are run to see their helps."""
    paths = [program, *(f"{top}/tools/{name}" for name in tools_of(top))]
    with ThreadPoolExecutor() as pool:
        return list(pool.map(command_of, paths, map(os.path.basename, paths)))


def help_files(commands: List[Command], version: Version) -> Files:
    """Manual pages and completions."""
    files: Files = {page_of(one.name): File(manual_of(one, version.number).encode()) for one in commands}
    for place, text_of in SHELLS.values():
        files.update({f"share/{place.format(one.name)}": File(text_of(one).encode()) for one in commands})
    return files


def places_of(top: str) -> List[str]:
    """Where files and links of these names stand, beside the tools' own folder."""
    names = [PROGRAM, *tools_of(top)]
    completions = [f"share/{place.format(name)}" for place, _ in SHELLS.values() for name in names]
    return [f"bin/{name}" for name in names] + [page_of(name) for name in names] + completions
