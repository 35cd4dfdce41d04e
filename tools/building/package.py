"""The packaged program: release/lostd-x86_64-linux.xz, and release/MANIFEST, which says what it was built from."""
from __future__ import annotations

import lzma
import os
from typing import Dict, NamedTuple, Optional

from building.faults import OWN_CLONE, Fault, unwritten
from building.files import sum_of_bytes, write_file
from building.trees import Trees, trees_of

FOLDER = "release"
FILE = f"{FOLDER}/lostd-x86_64-linux.xz"
MANIFEST = f"{FOLDER}/MANIFEST"
UNPACKED = f"{FOLDER}/out/lostd"
AGAIN = "get it again with `git checkout -- release`, or build with ./build"

HEAD = """\
# What lostd-x86_64-linux.xz was built from. ./lostd runs it where crates/ and crates.txt have these ids of git.
# release/verify proves and builds them again, and compares: it needs a kit of this logic.
"""


class Manifest(NamedTuple):
    """What a package was built from, and the program's checksum."""

    trees: Trees
    kit: str
    processor: str
    size: int
    sha256: str

    def text(self) -> str:
        """As it stands in the file."""
        rows = {"crates": self.trees.crates, "crates.txt": self.trees.crates_txt, "kit": self.kit}
        rows.update({"processor": self.processor, "size": str(self.size), "sha256": self.sha256})
        return HEAD + "".join(f"{name}: {value}\n" for name, value in rows.items())


def manifest_of(text: str) -> Manifest:
    """What the text of a manifest says; KeyError or ValueError where it is none."""
    rows: Dict[str, str] = {}
    for line in text.splitlines():
        if not line.startswith("#"):
            name, _, value = line.partition(": ")
            rows[name] = value
    trees = Trees(rows["crates"], rows["crates.txt"])
    return Manifest(trees, rows["kit"], rows["processor"], int(rows["size"]), rows["sha256"])


class Package:
    """The package of a checkout."""

    def __init__(self, top: str, manifest: Manifest) -> None:
        self.top, self.manifest = top, manifest

    def fits(self) -> bool:
        """Whether it was built from the sources as they stand in the work tree."""
        return self.manifest.trees == trees_of(self.top)

    def is_program(self, body: bytes) -> bool:
        """Whether these are the program's bytes."""
        return len(body) == self.manifest.size and sum_of_bytes(body) == self.manifest.sha256

    def program(self) -> bytes:
        """The program; a fault where the package is damaged."""
        try:
            with open(f"{self.top}/{FILE}", "rb") as file:
                body = lzma.decompress(file.read())
        except (OSError, lzma.LZMAError) as error:
            raise Fault(f"{FILE} cannot be unpacked ({error}): {AGAIN}") from None
        if not self.is_program(body):
            raise Fault(f"{FILE} is damaged (its checksum is not the one in {MANIFEST}): {AGAIN}")
        return body

    def unpack(self) -> str:
        """The path of the program, unpacked; a file there is looked at each time, and never taken on trust."""
        path = f"{self.top}/{UNPACKED}"
        try:
            with open(path, "rb") as file:
                if self.is_program(file.read()) and os.access(path, os.X_OK):
                    return path
        except OSError:
            pass
        body = self.program()
        try:
            write_file(path, body)
        except OSError as error:
            raise unwritten(UNPACKED, error, OWN_CLONE) from None
        return path


def package_of(top: str) -> Optional[Package]:
    """The package of a checkout, if it has one; a fault where its manifest cannot be read."""
    if not os.path.lexists(f"{top}/{MANIFEST}"):
        return None
    try:
        with open(f"{top}/{MANIFEST}", encoding="utf-8") as file:
            return Package(top, manifest_of(file.read()))
    except (OSError, KeyError, ValueError):
        raise Fault(f"{MANIFEST} cannot be read: {AGAIN}") from None


def write_package(top: str, body: bytes, kit: str, processor: str) -> Manifest:
    """Writes both files for a program that was built from the sources as they stand."""
    manifest = Manifest(trees_of(top), kit, processor, len(body), sum_of_bytes(body))
    os.makedirs(f"{top}/{FOLDER}", exist_ok=True)
    with open(f"{top}/{FILE}", "wb") as file:
        file.write(lzma.compress(body, preset=9 | lzma.PRESET_EXTREME))
    with open(f"{top}/{MANIFEST}", "w", encoding="utf-8") as text:
        text.write(manifest.text())
    return manifest
