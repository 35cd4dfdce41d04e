"""Helps as they are read, and the completions that are made from them."""
from __future__ import annotations

import os
import shutil
import subprocess
import tempfile
import unittest
from typing import ClassVar, Dict, List

from building.completions import FILES, SHELLS, is_file, short
from building.helps import Command, Option, unfolded
from building.installing import commands_of
from tests.running import CASES, TOP

# What stands for a value in the helps of all commands, and is no file.
NO_FILES = {
    "ADDRESS", "CHANNEL", "COLUMN", "ELEMENT=TEMPLATE", "ELEMENT=VALUE [ELEMENT=VALUE ...]", "HOST:PORT", "HOST:PORT[,HOST:PORT..]", "KEY", "LANG=TEMPLATE",
    "LAT,LON", "METRES", "N", "NAME", "NUMBER", "PROPERTY", "SECONDS", "SHARE", "SOUTH,WEST,NORTH,EAST", "STAMP", "T", "TEMPLATE",
    "THEIRS=OURS", "TIME", "TITLE", "URL", "URN",
}  # fmt: skip
# What somebody types, and what is offered then.
TYPED = {
    "lost-client ": ["boundary", "desk", "find", "services", "status"],
    "lost-client s": ["services", "status"],
    "lost-client status --j": ["--json"],
    "lost-client boundary --k": ["--key"],
    "lost-feed s": ["snapshot", "status"],
    "lost-feed publish --e": ["--each"],
    "lost-gateway --area ": ["all", "centre", "largest", "refuse"],
    "lostd serve --k": ["--keep-going"],
    "lostd ": ["replay", "serve"],
}


def everywhere(commands: List[Command]) -> List[Option]:
    """The options of commands and of their subcommands."""
    return [option for command in commands for option in [*command.options(), *everywhere(command.commands)]]


class Helps(unittest.TestCase):
    """What is read from a help."""

    def test_a_meaning_below_its_term(self) -> None:
        text = "options:\n  --long HOST:PORT[,HOST:PORT..]\n                        first\n                        second\n  -h, --help            help\n"
        self.assertEqual(unfolded(text), ["options:", "  --long HOST:PORT[,HOST:PORT..]  first second", "  -h, --help            help"])
        command = Command("a", "", unfolded(text), [])
        self.assertEqual(command.options(), [Option(("--long",), "HOST:PORT[,HOST:PORT..]", "first second"), Option(("-h", "--help"), "", "help")])

    def test_choices(self) -> None:
        self.assertEqual(Option(("--a",), "{b,c}", "").choices(), ["b", "c"])
        self.assertEqual(Option(("--a",), "FILE", "").choices(), [])

    def test_the_first_clause(self) -> None:
        self.assertEqual(short("The address: HOST:PORT, or unix:PATH"), "The address")
        self.assertEqual(short("such as urn:service:sos.police"), "such as urn:service:sos.police")
        self.assertEqual(short("Ends `it` [default: 300]"), "Ends it")


class Completions(unittest.TestCase):
    """The completions of all commands, with a stand-in for the program."""

    folder: ClassVar[str]
    commands: ClassVar[List[Command]]

    @classmethod
    def setUpClass(cls) -> None:
        cls.folder = tempfile.mkdtemp()
        cls.addClassCleanup(shutil.rmtree, cls.folder, ignore_errors=True)
        program = shutil.copy(f"{CASES}/install/stand-in", f"{cls.folder}/lostd")
        os.chmod(program, 0o755)
        cls.commands = commands_of(TOP, program)
        for shell, (_, text_of) in SHELLS.items():
            os.makedirs(f"{cls.folder}/{shell}")
            for command in cls.commands:
                with open(cls.path(shell, command.name), "w", encoding="utf-8") as file:
                    file.write(text_of(command))

    @classmethod
    def path(cls, shell: str, name: str) -> str:
        """The completions of a command."""
        return f"{cls.folder}/{shell}/{name}"

    def test_the_subcommands_of_a_program(self) -> None:
        below = self.commands[0].commands
        self.assertEqual([one.name for one in below], ["replay", "serve"])
        self.assertEqual([one.about for one in below], ["Answers standard input", "Answers over TCP, at two addresses"])
        self.assertEqual(below[0].options(), [Option(("--name",), "<NAME>", "The server's name")])

    def test_each_value_is_a_file_or_not(self) -> None:
        values = {option.value.strip("<>") for option in everywhere(self.commands) if option.value and not option.choices()}
        self.assertEqual(values - NO_FILES, set(FILES))
        self.assertTrue(is_file(Option(("--map",), "<FILE>", "")))

    def test_each_shell_can_read_them(self) -> None:
        for shell in SHELLS:
            for command in self.commands if shutil.which(shell) else []:
                words = [shell, "-n", self.path(shell, command.name)]
                ran = subprocess.run(words, stdout=subprocess.PIPE, stderr=subprocess.STDOUT, timeout=20)
                self.assertEqual((ran.returncode, ran.stdout), (0, b""), words)

    def offered(self, script: str, shell: str, line: str) -> List[str]:
        """What a script of a shell offers for a line."""
        values = {"LINE": line, "FILE": self.path(shell, line.split()[0])}
        ran = subprocess.run([shell, "-c", script], env={**os.environ, **values, "HOME": self.folder}, capture_output=True, text=True, timeout=20)
        self.assertEqual(ran.stderr, "", line)
        return sorted(found.split("\t")[0] for found in ran.stdout.splitlines())

    def see(self, shell: str, script: str) -> None:
        """Compares what a shell offers with what it must."""
        if not shutil.which(shell):
            self.skipTest(f"{shell} is not there")
        for line, wanted in TYPED.items():
            self.assertEqual(self.offered(script, shell, line), wanted, line)

    def test_bash(self) -> None:
        calls = 'compopt() { :; }; . "$FILE"; read -ra COMP_WORDS <<< "$LINE"; case "$LINE" in *" ") COMP_WORDS+=("") ;; esac; '
        calls += 'COMP_CWORD=$((${#COMP_WORDS[@]} - 1)); one="${COMP_WORDS[0]}"; "_${one//-/_}"; printf "%s\\n" "${COMPREPLY[@]}"'
        self.see("bash", calls)

    def test_fish(self) -> None:
        self.see("fish", 'source $FILE; complete -C "$LINE"')

    def test_zsh_has_each_option(self) -> None:
        for command in self.commands:
            with open(self.path("zsh", command.name), encoding="utf-8") as file:
                text = file.read()
            self.assertTrue(text.startswith(f"#compdef {command.name}\n"))
            for option in everywhere([command]):
                self.assertIn(option.names[-1], text)


class Versions(unittest.TestCase):
    """What each tool says of itself."""

    def test_each_tool_has_a_version(self) -> None:
        said: Dict[str, str] = {}
        for name in ("lost-client", "lost-feed", "lost-gateway", "map-check", "map-page", "geojson-to-desk", "desk-to-geojson", "desk-to-svg", "addresses-to-desk", "postgis-to-desk"):
            ran = subprocess.run([f"{TOP}/tools/{name}", "--version"], capture_output=True, text=True, timeout=60)
            self.assertEqual((ran.returncode, ran.stderr), (0, ""), name)
            said[name] = ran.stdout.replace(f"{name} ", "", 1)
        self.assertEqual(len(set(said.values())), 1, said)
        self.assertRegex(said["lost-client"], r"^[0-9.]+ \(tools [0-9a-f]{12}, crates [0-9a-f]{12}\)\n$")
