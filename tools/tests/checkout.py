"""A small checkout with its scripts, in a folder of its own, and a stand-in for the kit."""
from __future__ import annotations

import os
import shutil
import signal
import subprocess
import sys
import tempfile
import time
import unittest
from typing import Dict, List, Tuple

from building.kit import LOGIC, PLACE
from building.machine import PORTABLE
from building.package import FILE, write_package
from tests.running import CASES, TOP, read

SCRIPTS = ("build", "install", "lostd", "release/check", "release/make", "release/verify")
# The crates, lowest first, with what each uses; lost_bench is below no program.
CRATES = {"lost_low": "", "lost_left": "lost_low", "lost_right": "lost_low", "lostd": "lost_left lost_right", "lost_bench": "lost_low"}
IDENTITY = f"rattle-kit-test logic {LOGIC}"


class Checkout(unittest.TestCase):
    """Each test has a checkout at `top`, and a kit at `kit` that is not on the PATH."""

    def setUp(self) -> None:
        self.folder = tempfile.mkdtemp()
        self.addCleanup(shutil.rmtree, self.folder, ignore_errors=True)
        self.top, self.kit = f"{self.folder}/top", f"{self.folder}/kit/bin"
        for script in SCRIPTS:
            os.makedirs(os.path.dirname(f"{self.top}/{script}"), exist_ok=True)
            shutil.copy(f"{TOP}/{script}", f"{self.top}/{script}")
        shutil.copytree(f"{TOP}/tools/building", f"{self.top}/tools/building", ignore=shutil.ignore_patterns("__pycache__"))
        os.makedirs(f"{self.top}/tools/maptools")
        for name in ("__init__.py", "command_line.py"):
            shutil.copy(f"{TOP}/tools/maptools/{name}", f"{self.top}/tools/maptools")
        self.change("tools/building/kit.py", PLACE, f"{self.kit}/rt")
        self.change("tools/building/machine.py", "DISK = 12_000", "DISK = 1")
        self.change("tools/building/schedule.py", " = 1_200, 0.8, 0.1", " = 1, 0.8, 0.1")
        self.write(f"{self.kit}/KIT-ID", IDENTITY)
        shutil.copy(f"{CASES}/building/rt", self.kit)
        self.link_commands()
        self.write_crates()
        self.git("init", "--quiet")
        self.write(f"{self.top}/.gitignore", "out/\n")
        self.commit()

    def link_commands(self) -> None:
        """A folder for the PATH that has what the scripts call, and no kit."""
        os.makedirs(f"{self.folder}/commands")
        for command in ("cat", "git", "python3", "setpriv", "sh"):
            path = sys.executable if command == "python3" else shutil.which(command)
            if path:
                os.symlink(path, f"{self.folder}/commands/{command}")

    def write_crates(self) -> None:
        """The sources, and one session."""
        rows = "".join(f"{name}: {uses}\n" for name, uses in CRATES.items())
        self.write(f"{self.top}/crates.txt", f"# the crates\n{rows}")
        for name, uses in CRATES.items():
            self.write(f"{self.top}/crates/{name}/uses", uses)
            root = ("main.rt", read("building/program")) if name == "lostd" else ("lib.rt", f"fn {name}() {{}}\n")
            self.write(f"{self.top}/crates/{name}/src/{root[0]}", root[1])
        for ending in ("jsonl", "expected"):
            self.write(f"{self.top}/crates/rows_gate/data/sessions/one.{ending}", "{}\n")
        os.symlink("crates/rows_gate/data/sessions", f"{self.top}/examples")

    def write(self, path: str, text: str) -> None:
        """Writes a file."""
        os.makedirs(os.path.dirname(path), exist_ok=True)
        with open(path, "w", encoding="utf-8") as file:
            file.write(text)

    def change(self, path: str, old: str, new: str) -> None:
        """Changes a text in a file of the checkout, where it must stand."""
        with open(f"{self.top}/{path}", encoding="utf-8") as file:
            text = file.read()
        self.assertIn(old, text)
        self.write(f"{self.top}/{path}", text.replace(old, new))

    def git(self, *words: str) -> str:
        """What git prints."""
        who = ["-c", "user.name=a", "-c", "user.email=a@example.com"]
        ran = subprocess.run(["git", *who, "-C", self.top, *words], capture_output=True, text=True, check=True, timeout=60)
        return ran.stdout.strip()

    def commit(self) -> None:
        """Commits all."""
        self.git("add", "--all")
        self.git("commit", "--quiet", "--message", "a state")

    def pack(self) -> None:
        """Makes the package of the sources as they stand, without building it."""
        with open(f"{self.top}/crates/lostd/src/main.rt", "rb") as file:
            write_package(self.top, file.read(), IDENTITY, PORTABLE)

    def damage(self) -> None:
        """Changes one byte of the package, past the head of its format."""
        with open(f"{self.top}/{FILE}", "r+b") as file:
            file.seek(40)
            byte = file.read(1)
            file.seek(40)
            file.write(bytes([byte[0] ^ 1]))

    def environment(self) -> Dict[str, str]:
        """An environment without a kit on its PATH."""
        return {**os.environ, "PATH": f"{self.folder}/commands", "HOME": self.folder}

    def run_script(self, script: str, *words: str, given: str = "") -> Tuple[int, str, str]:
        """The status, the output, and what is said on standard error."""
        how = {"input": given, "capture_output": True, "text": True, "timeout": 120}
        ran = subprocess.run([f"{self.top}/{script}", *words], env=self.environment(), **how)
        return ran.returncode, ran.stdout, ran.stderr

    def proved(self) -> List[str]:
        """What the kit has proved since this was asked last: the crate, its words, and what it began with."""
        try:
            with open(f"{self.kit}/CALLS", encoding="utf-8") as file:
                found = file.read().splitlines()
        except FileNotFoundError:
            return []
        os.remove(f"{self.kit}/CALLS")
        return found

    def stopped(self, by: signal.Signals, seconds: float, script: str, *words: str) -> Tuple[int, str]:
        """Stops a command that builds while the second layer is being proved; its status, and what it said."""
        self.write(f"{self.kit}/SECONDS", str(seconds))
        command = [f"{self.top}/{script}", *words]
        # (where the tests run in the background, the shell has them ignore an interrupt, and what they start too)
        pipes = {"env": self.environment(), "stderr": subprocess.PIPE, "text": True}
        running = subprocess.Popen(command, **pipes, preexec_fn=lambda: signal.signal(signal.SIGINT, signal.SIG_DFL))
        ends = time.monotonic() + 60
        while time.monotonic() < ends and not self.is_at("lost_left"):
            time.sleep(0.05)
        running.send_signal(by)
        said = running.communicate(timeout=60)[1]
        self.write(f"{self.kit}/SECONDS", "0")
        return running.returncode, said

    def is_at(self, name: str) -> bool:
        """Whether the kit has begun with a crate."""
        try:
            with open(f"{self.kit}/CALLS", encoding="utf-8") as file:
                return name in file.read()
        except FileNotFoundError:
            return False
