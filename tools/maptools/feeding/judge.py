"""A server of one's own, over the map of the log, that judges what is to be published before anybody else sees it."""
from __future__ import annotations

import argparse
import os
import re
import select
import shutil
import subprocess
import tempfile
from typing import Any, List, Optional

from maptools.addresses import Unix
from maptools.connection import CHUNK, Broken, connect
from maptools.feed import USUAL
from maptools.feeding.standing import Standing, standing_of
from maptools.installed import program_at_hand
from maptools.rounds import Reply, Talk

NO_PROGRAM = "there is no program lostd that could judge the lines: name it with --lostd"
# How long one reply may take: that to a large commit takes a while. And how long a line about a commit may take to come.
SECONDS, SOON = 60.0, 0.1
COMMITTED = re.compile(rb": committed [0-9]+ edits?: edition ([0-9]+), [0-9]+ mappings, map ([0-9a-f]{32})$")


def leash() -> List[str]:
    """What goes before a command that must not outlive this program, even if that is killed; nothing where setpriv is missing."""
    return ["setpriv", "--pdeathsig", "KILL"] if shutil.which("setpriv") else []


class Judge:
    """The server, and the connection of its one desk. Used in a `with`, both are ended at the end."""

    def __init__(self, program: Optional[str], map_path: str) -> None:
        program = program or program_at_hand()
        if program is None:
            raise Broken(NO_PROGRAM)
        if not os.access(program, os.X_OK) or os.path.isdir(program):
            raise Broken(f"--lostd: {program} is not a program")
        self.folder = tempfile.TemporaryDirectory(prefix="lost-feed-")
        self.desk, self.status, queries = (Unix(f"{self.folder.name}/{name}") for name in ("desk", "status", "queries"))
        self.talk: Optional[Talk] = None
        self.said = b""
        words = [*leash(), program, "serve", "--name", "judge.example", "--workers", "1", "--map", map_path]
        words += ["--queries", str(queries), "--desk", str(self.desk), "--status", str(self.status)]
        self.process = subprocess.Popen(words, stdin=subprocess.DEVNULL, stdout=subprocess.PIPE, stderr=subprocess.PIPE)
        try:
            self.need_ready()
        except BaseException:
            self.end()
            raise

    def __enter__(self) -> Judge:
        return self

    def __exit__(self, *_: Any) -> None:
        self.end()

    def need_ready(self) -> None:
        """Broken where the server does not begin."""
        if self.process.stdout.readline() != b"ready\n":
            said = self.process.stderr.read().decode(errors="replace").strip().splitlines()
            raise Broken(f"the lostd that judges did not begin: {said[0] if said else 'it says nothing'}")

    def ask(self, lines: List[bytes]) -> List[Reply]:
        """The replies to some lines. (A server ends a desk's connection that does not begin with one soon.)"""
        if self.talk is None:
            self.talk = Talk(connect(self.desk, USUAL), argparse.Namespace(json=False, timeout=SECONDS))
        return self.talk.ask(lines)

    def standing(self) -> Standing:
        """Where it stands."""
        return standing_of(self.status, USUAL)

    def standing_after(self, edition: int) -> Standing:
        """Where it stands after a commit, by its line about it on standard error; its status, which takes longer, where none comes."""
        while select.select([self.process.stderr], [], [], SOON)[0]:
            piece = os.read(self.process.stderr.fileno(), CHUNK)
            *lines, self.said = (self.said + piece).split(b"\n")
            for found in filter(None, map(COMMITTED.search, lines)):
                if int(found[1]) == edition:
                    return Standing(edition, found[2].decode())
            if not piece:
                break
        return self.standing()

    def end(self) -> None:
        """Ends it."""
        if self.talk is not None:
            self.talk.connection.close()
        self.process.kill()
        self.process.wait()
        for pipe in (self.process.stdout, self.process.stderr):
            pipe.close()
        self.folder.cleanup()
