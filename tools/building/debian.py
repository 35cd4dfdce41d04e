"""The Debian package: the same bytes each time from the same sources and program."""
from __future__ import annotations

import glob
import gzip
import hashlib
import io
import os
import re
import shutil
import subprocess
import tarfile
import tempfile
import textwrap
import time
from typing import Dict, List, Tuple

from building.faults import Fault
from building.installing import PROGRAM, VERSION_FILE, File, Files, body_of, commands_of, help_files, tool_files, write_tree
from building.package import FOLDER, MANIFEST, package_of
from building.services import settings_files, unit_files
from building.versions import Version

TEXTS = "release/debian"
# How many bytes are committed.
MOST_IN_GIT = 1_000_000
SCRIPTS = ("postinst", "prerm", "postrm")
DOCUMENTS = "share/doc/lostd"
EXAMPLE = "examples/maps/two-districts.jsonl"
# What the package is made from: its files are as old as the last commit that changed any of that.
SOURCES = ("crates", "crates.txt", "tools", TEXTS, "release/service", "docs", "CHANGELOG.md", "LICENSE-MIT", "examples")
GLIBC = re.compile(rb"GLIBC_([0-9]+)\.([0-9]+)")
# Where Debian wants completions of packages for zsh.
DEBIANS_ZSH = ("/zsh/site-functions/", "/zsh/vendor-completions/")
ANY_PYTHON, DEBIANS_PYTHON = b"#!/usr/bin/env python3\n", b"#!/usr/bin/python3\n"


def moment_of(top: str) -> int:
    """The time that all files of the package have, in seconds from 1970."""
    given = os.environ.get("SOURCE_DATE_EPOCH", "")
    if not given:
        words = ["git", "-C", top, "log", "-1", "--format=%ct", "--", *SOURCES]
        ran = subprocess.run(words, stdout=subprocess.PIPE, stderr=subprocess.DEVNULL, text=True)
        given = ran.stdout.strip()
    if not given.isdigit():
        raise Fault("there is no commit to take the package's time from: set SOURCE_DATE_EPOCH, in seconds from 1970")
    return int(given)


def changes_of(text: str) -> List[Tuple[str, List[str]]]:
    """What CHANGELOG.md says of each version: its lines, each with what it is about."""
    versions: List[Tuple[str, List[str]]] = []
    about = ""
    for line in text.splitlines():
        if line.startswith("## "):
            versions.append((line[3:].split(",")[0].strip(), []))
        elif line.startswith("**"):
            about = line.strip("*")
        elif line.startswith("- ") and versions:
            versions[-1][1].append(f"{about}: {line[2:]}" if about else line[2:])
    return versions


def changelog_of(top: str, version: Version, maintainer: str, moment: int) -> str:
    """The package's changelog, from CHANGELOG.md."""
    date = time.strftime("%a, %d %b %Y %H:%M:%S +0000", time.gmtime(moment))
    with open(f"{top}/CHANGELOG.md", encoding="utf-8") as file:
        versions = changes_of(file.read())
    if not versions or versions[0][0] != version.number:
        raise Fault(f"CHANGELOG.md does not begin with version {version.number}, which the sources have")
    texts = []
    for number, lines in versions:
        changes = "".join(f"{textwrap.fill(line, 78, initial_indent='  * ', subsequent_indent='    ')}\n" for line in lines)
        texts.append(f"{PROGRAM} ({number}) unstable; urgency=medium\n\n{changes}\n -- {maintainer}  {date}\n")
    return "\n".join(texts)


def control_of(top: str, name: str, values: Dict[str, str]) -> str:
    """A text of the package, with its values."""
    text = body_of(f"{top}/{TEXTS}/{name}").decode()
    for key, value in values.items():
        text = text.replace(f"@{key}@", value)
    return text


def document_files(top: str) -> Files:
    """The documents, a map to begin with, and what lintian is told."""
    names = sorted(name for name in os.listdir(f"{top}/docs") if name.endswith(".md"))
    files: Files = {f"{DOCUMENTS}/{name}": File(body_of(f"{top}/docs/{name}")) for name in names}
    files[f"{DOCUMENTS}/examples/{os.path.basename(EXAMPLE)}"] = File(body_of(f"{top}/{EXAMPLE}"))
    files[f"share/lintian/overrides/{PROGRAM}"] = File(body_of(f"{top}/{TEXTS}/lintian-overrides"))
    return files


def copyright_of(top: str, moment: int) -> bytes:
    """The licences."""
    with open(f"{top}/LICENSE-MIT", encoding="utf-8") as file:
        lines = file.read().split("\n\n", 1)[1].splitlines()
    expat = "\n".join(f" {line or '.'}" for line in lines)
    values = {"EXPAT": expat, "YEAR": str(time.gmtime(moment).tm_year)}
    return control_of(top, "copyright", values).encode()


def zipped(body: bytes) -> File:
    """A file that Debian wants compressed."""
    return File(gzip.compress(body, 9, mtime=0))


def below_usr(files: Files) -> Files:
    """Files of the prefix /usr, as Debian has them: with its own Python, and compressed manual pages."""
    placed: Files = {}
    for place, file in files.items():
        if isinstance(file, File) and file.body.startswith(ANY_PYTHON):
            file = file._replace(body=DEBIANS_PYTHON + file.body[len(ANY_PYTHON) :])
        if isinstance(file, File) and place.startswith("share/man/"):
            place, file = f"{place}.gz", zipped(file.body)
        placed[f"usr/{place.replace(*DEBIANS_ZSH)}"] = file
    return placed


def files_of(top: str, program: str, version: Version, moment: int) -> Files:
    """All files of the package, from the root."""
    commands = commands_of(top, program)
    usr = {f"bin/{PROGRAM}": File(body_of(program), 0o755), **tool_files(top, version), **help_files(commands, version), **unit_files(top, "/usr")}
    maintainer = re.search("^Maintainer: (.*)$", control_of(top, "control", {}), re.M)
    changelog = changelog_of(top, version, maintainer[1] if maintainer else "", moment)
    usr.update({**document_files(top), f"{DOCUMENTS}/changelog.gz": zipped(changelog.encode()), f"{DOCUMENTS}/copyright": File(copyright_of(top, moment))})
    return {**below_usr(usr), **settings_files(commands)}


def control_files(top: str, files: Files, version: Version) -> Files:
    """The control part of the package."""
    plain = {place: file for place, file in sorted(files.items()) if isinstance(file, File)}
    glibc = max((int(major), int(minor)) for major, minor in GLIBC.findall(plain[f"usr/bin/{PROGRAM}"].body) or [(b"2", b"28")])
    size = sum(-(-len(file.body) // 1024) for file in plain.values())
    values = {"VERSION": version.number, "GLIBC": ".".join(map(str, glibc)), "SIZE": str(size)}
    made = {
        "control": control_of(top, "control", values),
        "md5sums": "".join(f"{hashlib.md5(file.body).hexdigest()}  {place}\n" for place, file in plain.items()),
        "conffiles": "".join(f"/{place}\n" for place in plain if place.startswith("etc/")),
    }
    control: Files = {f"DEBIAN/{name}": File(text.encode()) for name, text in made.items()}
    control.update({f"DEBIAN/{name}": File(body_of(f"{top}/{TEXTS}/{name}"), 0o755) for name in SCRIPTS})
    return control


def settle(folder: str, moment: int) -> None:
    """Gives all files and folders one time, and folders one mode."""
    for place, _, names in os.walk(folder, topdown=False):
        for name in names:
            os.utime(f"{place}/{name}", (moment, moment), follow_symlinks=False)
        os.chmod(place, 0o755)
        os.utime(place, (moment, moment))


def make_package(top: str, program: str, version: Version, place: str) -> str:
    """Writes the package into a folder, and gives its path."""
    if not shutil.which("dpkg-deb"):
        raise Fault("there is no dpkg-deb: on Debian it is in the package dpkg")
    moment, path = moment_of(top), f"{place}/{PROGRAM}_{version.number}_amd64.deb"
    with tempfile.TemporaryDirectory(prefix="lostd-deb-") as folder:
        # (its helps name the program as it is called)
        named = shutil.copy(program, f"{folder}/{PROGRAM}")
        os.chmod(named, 0o755)
        files = files_of(top, named, version, moment)
        tree = f"{folder}/tree"
        write_tree(tree, {**files, **control_files(top, files, version)})
        os.makedirs(f"{tree}/var/lib/{PROGRAM}")
        settle(tree, moment)
        words = ["dpkg-deb", "--root-owner-group", "-Zxz", "-z9", "--threads-max=1", "--build", tree, f"{folder}/made.deb"]
        ran = subprocess.run(words, env={**os.environ, "SOURCE_DATE_EPOCH": str(moment)}, capture_output=True, text=True)
        if ran.returncode:
            raise Fault(f"dpkg-deb failed: {' '.join(ran.stderr.split())}")
        os.makedirs(place, exist_ok=True)
        shutil.copyfile(f"{folder}/made.deb", path)
    return path


def write_debian(top: str, version: Version) -> str:
    """Makes the package of the packaged program, in place of those that are there, and gives its path: in release/ where it is small
    enough for git, and else in release/out."""
    for old in debian_packages(top):
        os.remove(old)
    package = package_of(top)
    if package is None:
        raise Fault(f"there is no {MANIFEST}")
    made = make_package(top, package.unpack(), version, f"{top}/{FOLDER}/out")
    if os.path.getsize(made) > MOST_IN_GIT:
        return made
    path = f"{top}/{FOLDER}/{os.path.basename(made)}"
    os.replace(made, path)
    return path


def debian_packages(top: str) -> List[str]:
    """The Debian packages in release/."""
    return sorted(glob.glob(f"{top}/{FOLDER}/{PROGRAM}_*.deb"))


def version_in(path: str) -> str:
    """What the file VERSION in a package says."""
    ran = subprocess.run(["dpkg-deb", "--fsys-tarfile", path], capture_output=True)
    try:
        with tarfile.open(fileobj=io.BytesIO(ran.stdout)) as files:
            file = files.extractfile(f"./usr/{VERSION_FILE}")
            return file.read().decode() if file else ""
    except (tarfile.TarError, KeyError):
        raise Fault(f"{path} is no package of {PROGRAM}: release/make makes a new one") from None
