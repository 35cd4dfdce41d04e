"""The Debian package, with a stand-in for the program; no root and no network are needed."""
from __future__ import annotations

import os
import shutil
import subprocess
import tempfile
import unittest
import unittest.mock
from typing import ClassVar, Dict, List, Tuple

from building.debian import changes_of, debian_packages, version_in, write_debian
from building.faults import Fault
from building.helps import Command
from building.installing import tools_of
from building.machine import PORTABLE
from building.package import write_package
from building.services import SERVICES, settings_of
from building.trees import tree_id, trees_of
from building.versions import number_of, version_of
from tests.running import CASES, TOP

NEEDED = "dpkg-deb"


def run(*words: str, **more: str) -> Tuple[int, str]:
    """The status of a command, and all that it says."""
    environment = {**os.environ, "LC_ALL": "C.UTF-8", "SYSTEMD_PAGER": "", **more}
    ran = subprocess.run(words, stdout=subprocess.PIPE, stderr=subprocess.STDOUT, text=True, timeout=120, env=environment)
    return ran.returncode, ran.stdout


@unittest.skipUnless(shutil.which(NEEDED), f"{NEEDED} is not there")
class Debian(unittest.TestCase):
    """All tests look at one package, unpacked."""

    folder: ClassVar[str]
    package: ClassVar[str]
    root: ClassVar[str]

    @classmethod
    def setUpClass(cls) -> None:
        cls.folder = tempfile.mkdtemp()
        cls.addClassCleanup(shutil.rmtree, cls.folder, ignore_errors=True)
        cls.root = f"{cls.folder}/root"
        cls.package = cls.made("first")
        subprocess.run(["dpkg-deb", "--raw-extract", cls.package, cls.root], check=True, timeout=60)

    @classmethod
    def made(cls, name: str) -> str:
        """Makes the package in a folder of this name, and gives its path."""
        status, said = run(f"{TOP}/release/deb", "--program", f"{CASES}/install/stand-in", f"{cls.folder}/{name}", SOURCE_DATE_EPOCH="1796096064")
        if status:
            raise AssertionError(said)
        return f"{cls.folder}/{name}/lostd_{number_of(TOP)}_amd64.deb"

    def text(self, path: str) -> str:
        """The text of a file of the package."""
        with open(f"{self.root}/{path}", encoding="utf-8") as file:
            return file.read()

    def files(self, folder: str) -> List[str]:
        """The names in a folder of the package."""
        return sorted(os.listdir(f"{self.root}/{folder}"))

    def rows(self, text: str) -> Dict[str, str]:
        """Rows of names and values."""
        return dict(line.split(": ", 1) for line in text.splitlines() if ": " in line and not line.startswith(" "))

    def test_the_same_bytes_each_time(self) -> None:
        mask = os.umask(0o077)
        try:
            again = self.made("second")
        finally:
            os.umask(mask)
        with open(self.package, "rb") as one, open(again, "rb") as other:
            self.assertEqual(one.read(), other.read())

    def test_its_control_part(self) -> None:
        status, said = run("dpkg-deb", "--info", self.package)
        self.assertEqual(status, 0, said)
        rows = self.rows(self.text("DEBIAN/control"))
        self.assertEqual((rows["Package"], rows["Version"], rows["Architecture"]), ("lostd", number_of(TOP), "amd64"))
        self.assertIn("python3-aiohttp", rows["Recommends"])
        self.assertEqual(self.text("DEBIAN/conffiles"), "/etc/lostd/lost-feed.conf\n/etc/lostd/lost-gateway.conf\n/etc/lostd/lostd.conf\n")
        status, said = run("sh", "-c", f"cd '{self.root}' && md5sum --quiet -c DEBIAN/md5sums")
        self.assertEqual((status, said), (0, ""))
        for script in ("postinst", "prerm", "postrm"):
            self.assertEqual(run("sh", "-n", f"{self.root}/DEBIAN/{script}"), (0, ""))

    def test_each_command_has_a_page_and_completions(self) -> None:
        names = sorted(["lostd", *tools_of(TOP)])
        self.assertEqual(self.files("usr/bin"), names)
        self.assertEqual(self.files("usr/share/man/man1"), [f"{name}.1.gz" for name in names])
        self.assertEqual(self.files("usr/share/bash-completion/completions"), names)
        self.assertEqual(self.files("usr/share/zsh/vendor-completions"), [f"_{name}" for name in names])
        self.assertEqual(self.files("usr/share/fish/vendor_completions.d"), [f"{name}.fish" for name in names])

    def test_the_tools_run_under_debians_python(self) -> None:
        for name in tools_of(TOP):
            self.assertEqual(self.text(f"usr/bin/{name}").splitlines()[0], "#!/usr/bin/python3", name)
        status, said = run(f"{self.root}/usr/bin/lost-client", "--version")
        self.assertEqual((status, said), (0, f"lost-client {number_of(TOP)} (tools {tree_id(f'{TOP}/tools')[:12]}, crates unknown)\n"))

    def test_settings_are_those_of_the_help(self) -> None:
        lines = self.text("etc/lostd/lostd.conf").splitlines()
        for name, value in SERVICES[0].values.items():
            self.assertIn(f"{name} {value}", lines)
        self.assertIn("#--idle 300", lines)
        self.assertIn("#--keep-going", lines)
        self.assertNotIn("--connections", "\n".join(lines))
        self.assertIn("#--log /var/log/lost-gateway/queries.jsonl", self.text("etc/lostd/lost-gateway.conf").splitlines())

    def test_a_command_with_the_options_of_a_file(self) -> None:
        settings = f"{self.folder}/settings"
        with open(settings, "w", encoding="utf-8") as file:
            file.write("# a comment\n\n--name lost.example\n  --map /a place/map.jsonl\n#--idle 3\n--quiet")
        words = [f"{self.root}/usr/lib/lostd/with-options", settings, "printf", "<%s>", "serve"]
        self.assertEqual(run(*words), (0, "<serve><--name><lost.example><--map></a place/map.jsonl><--quiet>"))
        self.assertEqual(run(words[0], f"{settings}.none", "true")[0], 2)

    def check_map(self, settings: str) -> Tuple[int, str]:
        """What check-map says with these settings, and with a program that shows its words and its input."""
        with open(f"{self.folder}/settings", "w", encoding="utf-8") as file:
            file.write(settings)
        script = self.text("usr/lib/lostd/check-map").replace("/usr/bin/lostd", f"{self.folder}/shows")
        with open(f"{self.folder}/shows", "w", encoding="utf-8") as file:
            file.write('#!/bin/sh\nprintf "<%s>" "$@"\ncat\n')
        os.chmod(f"{self.folder}/shows", 0o755)
        return run("sh", "-c", script, "check-map", f"{self.folder}/settings")

    def test_the_check_of_the_map(self) -> None:
        path = f"{self.folder}/a map"
        status, said = self.check_map(f"--name lost.example\n--map {path}\n")
        self.assertEqual(status, 1)
        self.assertEqual(said, f"lostd: no map that can be read is at {path}, which {self.folder}/settings names: put one there\n")
        with open(path, "w", encoding="utf-8") as file:
            file.write("lines\n")
        status, said = self.check_map(f"--name lost.example\n--map {path}\n")
        self.assertEqual(status, 0)
        self.assertRegex(said, r"^<check><--name><lost.example><--now><[0-9TZ:-]+><--lines><[0-9]+>lines\n$")
        self.assertEqual(self.check_map("--name lost.example\n#--map x\n"), (0, ""))

    def test_the_units(self) -> None:
        if not shutil.which("systemd-analyze"):
            self.skipTest("systemd-analyze is not there")
        for service in SERVICES:
            path = f"{self.root}/usr/lib/systemd/system/{service.unit}"
            status, said = run("systemd-analyze", "security", "--offline=yes", "--threshold=20", "--no-pager", path)
            self.assertEqual(status, 0, said)
            self.assertNotIn("Unknown", run("systemd-analyze", "verify", f"--root={self.root}", path)[1])

    def test_lintian(self) -> None:
        if not shutil.which("lintian"):
            self.skipTest("lintian is not there")
        status, said = run("lintian", "--fail-on", "error,warning", self.package)
        found = [line for line in said.splitlines() if line.startswith(("E:", "W:"))]
        self.assertEqual(found, [], said)
        self.assertEqual(status, 0, said)

    def test_dpkg_in_a_folder(self) -> None:
        if os.geteuid() != 0:
            self.skipTest("dpkg --root needs root")
        root = f"{self.folder}/installed"
        os.makedirs(f"{root}/var/lib/dpkg")
        for name in ("status", "available"):
            with open(f"{root}/var/lib/dpkg/{name}", "w", encoding="utf-8"):
                pass
        status, said = run("dpkg", f"--root={root}", "--force-depends", "--force-script-chrootless", "--unpack", self.package)
        self.assertEqual(status, 0, said)
        self.assertTrue(os.path.exists(f"{root}/usr/bin/lostd"))
        with open(f"{root}/var/lib/lostd/map.jsonl", "w", encoding="utf-8") as file:
            file.write("a map\n")
        for action in ("--remove", "--purge"):
            status, said = run("dpkg", f"--root={root}", "--force-depends", "--force-script-chrootless", action, "lostd")
            self.assertEqual(status, 0, said)
            self.assertFalse(os.path.exists(f"{root}/usr/bin/lostd"))
            self.assertTrue(os.path.exists(f"{root}/var/lib/lostd/map.jsonl"))
        self.assertFalse(os.path.exists(f"{root}/etc/lostd/lostd.conf"))

    def test_it_takes_the_place_of_an_older_one(self) -> None:
        top = f"{self.folder}/top"
        os.makedirs(f"{top}/release")
        for name in ("crates", "crates.txt", "tools", "docs", "examples", "CHANGELOG.md", "LICENSE-MIT", "release/debian", "release/service"):
            os.symlink(f"{TOP}/{name}", f"{top}/{name}")
        with open(f"{CASES}/install/stand-in", "rb") as program:
            write_package(top, program.read(), "a kit", PORTABLE)
        with open(f"{top}/release/lostd_0.0.1_amd64.deb", "w", encoding="utf-8"):
            pass
        version = version_of(top, trees_of(top).crates)
        with unittest.mock.patch.dict(os.environ, {"SOURCE_DATE_EPOCH": "1796096064"}):
            path = write_debian(top, version)
        self.assertEqual(debian_packages(top), [path])
        self.assertEqual(version_in(path), version.text())

    def test_mistakes_and_faults(self) -> None:
        self.assertEqual(run(f"{TOP}/release/deb", "--help")[0], 0)
        self.assertEqual(run(f"{TOP}/release/deb", "--nothing")[0], 2)
        nothing = f"{self.folder}/nothing"
        self.assertEqual(run(f"{TOP}/release/deb", "--program", nothing), (1, f"release/deb: {nothing} is no file\n"))


class Texts(unittest.TestCase):
    """What the package is made from."""

    def test_the_changes_of_a_version(self) -> None:
        text = "# Changes\n\n- before\n\n## 0.2.0, not yet released\n\n**Server**\n\n- a\n- b\n\n## 0.1.0, 2026-01-01\n\n**Gateway**\n\n- c\n"
        self.assertEqual(changes_of(text), [("0.2.0", ["Server: a", "Server: b"]), ("0.1.0", ["Gateway: c"])])

    def test_an_option_that_is_set_must_be_there(self) -> None:
        lines = ["Options:", *(f"      {name} <X>  does something" for name in SERVICES[0].values)]
        text = settings_of(SERVICES[0], Command("serve", "", lines, []))
        self.assertTrue(text.endswith("\n# Does something\n--workers 4\n"), text)
        with self.assertRaisesRegex(Fault, "lostd serve has no --workers, which lostd.service names"):
            settings_of(SERVICES[0], Command("serve", "", lines[:-1], []))

    def test_the_page_of_changes_begins_with_the_version_of_the_sources(self) -> None:
        with open(f"{TOP}/CHANGELOG.md", encoding="utf-8") as file:
            self.assertEqual(changes_of(file.read())[0][0], number_of(TOP))

    def test_no_other_page_has_a_version(self) -> None:
        with open(f"{TOP}/README.md", encoding="utf-8") as file:
            self.assertNotIn(number_of(TOP), file.read())
