"""./install: with a stand-in for the program, in folders of its own."""
from __future__ import annotations

import os
import shutil
import signal
import stat
import subprocess
from typing import List, Tuple

from building.kit import LOGIC
from building.trees import trees_of
from tests.checkout import Checkout
from tests.running import CASES, TOP, read

NO_PROGRAM = "install: there is no program of these sources yet: `./install --from-source` proves and builds it, which takes up to half an hour\n"


TOOLS = ("desk-to-geojson", "lost-client", "lost-feed", "lost-gateway")
ENDINGS = ("share/bash-completion/completions/{}", "share/fish/vendor_completions.d/{}.fish", "share/man/man1/{}.1", "share/zsh/site-functions/_{}")


class Install(Checkout):
    """A checkout with four of the tools, whose package is a stand-in for the program."""

    def setUp(self) -> None:
        super().setUp()
        for tool in TOOLS:
            shutil.copy(f"{TOP}/tools/{tool}", f"{self.top}/tools/{tool}")
        for folder in ("tools/gateway", "tools/maptools", "release/service"):
            shutil.copytree(f"{TOP}/{folder}", f"{self.top}/{folder}", dirs_exist_ok=True, ignore=shutil.ignore_patterns("__pycache__"))
        self.write(f"{self.top}/crates/lost_status/src/status.rt", 'pub const VERSION: &str = "0.0.7";\n')
        self.prefix, self.destination = f"{self.folder}/a place", ""
        self.write(f"{self.top}/crates/lostd/src/main.rt", read("install/stand-in"))
        self.pack()

    def install(self, *words: str) -> Tuple[int, str]:
        """The status, and all that is said."""
        status, out, said = self.run_script("install", *words)
        return status, out + said

    def environment(self) -> dict:
        return {**super().environment(), "DESTDIR": self.destination}

    def files(self, folder: str) -> List[str]:
        """The files and links below a folder."""
        return sorted(os.path.relpath(f"{place}/{name}", folder) for place, _, names in os.walk(folder) for name in names)

    def outside_lib(self, folder: str) -> List[str]:
        """The same, but for what the tools are made of."""
        return [name for name in self.files(folder) if not name.startswith(("lib/lostd/gateway/", "lib/lostd/maptools/"))]

    def wanted(self) -> List[str]:
        """What an installation has outside."""
        names = ("lostd", *TOOLS)
        found = [f"bin/{name}" for name in names] + [ending.format(name) for ending in ENDINGS for name in names]
        return sorted([*found, "lib/lostd/VERSION", *(f"lib/lostd/{tool}" for tool in TOOLS)])

    def mode(self, path: str) -> int:
        """The mode of a file below the prefix."""
        return stat.S_IMODE(os.stat(f"{self.prefix}/{path}").st_mode)

    def test_all_files_come_and_go(self) -> None:
        status, said = self.install(self.prefix)
        self.assertEqual(self.outside_lib(self.prefix), self.wanted())
        self.assertEqual((status, said), (0, f"installed {self.prefix}/bin/lostd and its tools: {len(self.files(self.prefix))} files\n"))
        self.assertEqual([self.mode(path) for path in ("bin/lostd", "bin/lost-client", ENDINGS[2].format("lostd"))], [0o755, 0o755, 0o644])
        ran = subprocess.run([f"{self.prefix}/bin/lostd", "--version"], capture_output=True, timeout=10)
        self.assertEqual(ran.stdout, b"lostd 0.0.7\n")
        self.assertEqual(self.install("--uninstall", self.prefix), (0, f"removed {self.prefix}/bin/lostd and its tools\n"))
        self.assertEqual(self.files(self.prefix), [])
        self.assertEqual(self.install("--uninstall", self.prefix), (0, f"nothing to remove: {self.prefix} has no lostd\n"))
        self.assertEqual(self.proved(), [])

    def test_an_installed_tool_runs_without_the_checkout(self) -> None:
        self.install(self.prefix)
        trees = trees_of(self.top)
        os.rename(self.top, f"{self.folder}/elsewhere")
        words = [f"{self.prefix}/bin/lost-client", "--version"]
        said = subprocess.run(words, capture_output=True, text=True, timeout=30).stdout
        self.assertRegex(said, rf"^lost-client 0\.0\.7 \(tools [0-9a-f]{{12}}, crates {trees.crates[:12]}\)\n$")
        words = [f"{self.prefix}/bin/desk-to-geojson", "--lines", "-"]
        ran = subprocess.run(words, input="", capture_output=True, text=True, timeout=30)
        self.assertEqual((ran.returncode, ran.stderr), (0, ""))

    def test_services_only_where_they_are_asked_for(self) -> None:
        self.destination = f"{self.folder}/stage"
        self.write(f"{self.destination}/etc/lostd/lostd.conf", "mine\n")
        status, said = self.install("--units", "/opt/lostd")
        self.assertEqual(status, 0, said)
        self.assertIn("systemd-sysusers && systemctl daemon-reload", said)
        units = [f"opt/lostd/lib/systemd/system/{name}.service" for name in ("lost-feed", "lost-gateway", "lostd")]
        found = self.files(self.destination)
        for path in (*units, "opt/lostd/lib/sysusers.d/lostd.conf", "opt/lostd/lib/lostd/check-map", "opt/lostd/lib/lostd/with-options"):
            self.assertIn(path, found)
        self.assertNotRegex("".join(self.text(path) for path in units), "@[A-Z]+@")
        self.assertIn("\nExecStart=/opt/lostd/lib/lostd/with-options /etc/lostd/lostd.conf /opt/lostd/bin/lostd serve\n", self.text(units[2]))
        self.assertIn("\nExecStart=/opt/lostd/lib/lostd/with-options /etc/lostd/lost-feed.conf /opt/lostd/bin/lost-feed follow\n", self.text(units[0]))
        self.assertEqual(self.text("etc/lostd/lostd.conf"), "mine\n")
        self.assertIn("\n--journal /var/lib/lostd/journal.jsonl\n", self.text("etc/lostd/lost-feed.conf"))
        self.assertIn("\n--listen 127.0.0.1:8080\n", self.text("etc/lostd/lost-gateway.conf"))
        self.assertEqual(self.install("--uninstall", "/opt/lostd")[0], 0)
        self.assertEqual(self.files(self.destination), ["etc/lostd/lost-feed.conf", "etc/lostd/lost-gateway.conf", "etc/lostd/lostd.conf"])

    def text(self, path: str) -> str:
        """The text of a file below DESTDIR."""
        with open(f"{self.destination}/{path}", encoding="utf-8") as file:
            return file.read()

    def test_the_manual_page_is_what_the_helps_print(self) -> None:
        self.install(self.prefix)
        with open(f"{self.prefix}/share/man/man1/lostd.1") as file, open(f"{CASES}/install/lostd.1") as expected:
            self.assertEqual(file.read(), expected.read())

    def test_the_manual_page_is_set_without_a_warning(self) -> None:
        if not shutil.which("groff"):
            self.skipTest("groff is not there")
        self.install(self.prefix)
        words = ["groff", "-man", "-ww", "-Tascii", f"{self.prefix}/share/man/man1/lostd.1"]
        self.assertEqual(subprocess.run(words, capture_output=True, timeout=30).stderr, b"")

    def test_destdir_stands_before_the_prefix(self) -> None:
        self.destination = f"{self.folder}/stage"
        self.assertEqual(self.install()[0], 0)
        self.assertEqual(self.outside_lib(f"{self.destination}/usr/local"), self.wanted())
        self.assertEqual(self.install("--uninstall")[0], 0)
        self.assertEqual(self.files(self.destination), [])

    def test_a_program_is_built_only_where_that_is_asked_for(self) -> None:
        self.change("crates/lost_low/src/lib.rt", "{}", "{ }")
        self.assertEqual(self.install(self.prefix), (1, NO_PROGRAM))
        self.assertFalse(os.path.exists(self.prefix))
        self.assertEqual(self.proved(), [])
        self.assertEqual(self.install("--from-source", self.prefix)[0], 0)
        self.assertEqual(len(self.proved()), 4)
        self.assertEqual(self.outside_lib(self.prefix), self.wanted())
        self.assertEqual(self.install(self.prefix)[0], 0)
        self.assertEqual(self.proved(), [])

    def test_from_source_is_never_the_package(self) -> None:
        self.assertEqual(self.install("--from-source", self.prefix)[0], 0)
        self.assertEqual(len(self.proved()), 4)

    def test_mistakes_and_faults(self) -> None:
        self.assertEqual(self.install("--help")[0], 0)
        for words in (["a place"], ["--replace"], [self.prefix, "more"], ["--uninstall", "x"], [""], ["--uninstall", "--from-source"],
                      ["--uninstall", "--units"]):
            self.assertEqual(self.install(*words)[0], 2, words)
        self.write(f"{self.folder}/file", "")
        user = "become a user who may write there, such as root"
        wanted = f"install: {self.folder}/file cannot be written (Not a directory): {user}, or name another PREFIX\n"
        self.assertEqual(self.install(f"{self.folder}/file"), (1, wanted))
        os.makedirs(f"{self.folder}/other/bin/lostd")
        wanted = f"install: {self.folder}/other/bin/lostd cannot be removed (Is a directory): {user}\n"
        self.assertEqual(self.install("--uninstall", f"{self.folder}/other"), (1, wanted))

    def test_a_program_that_this_machine_cannot_run(self) -> None:
        self.write(f"{self.top}/crates/lostd/src/main.rt", "no program\n")
        self.pack()
        wanted = "the manual pages could not be made, since the program does not run: it needs x86-64 Linux with glibc"
        self.assertEqual(self.install(self.prefix), (1, f"install: {wanted}\n"))
        self.assertFalse(os.path.exists(self.prefix))
        wanted = f"{self.top}/release/out/lostd cannot be run (Exec format error): it needs x86-64 Linux with glibc"
        self.assertEqual(self.run_script("lostd", "--version"), (1, "", f"lostd: {wanted}\n"))

    def test_from_source_without_a_kit(self) -> None:
        os.remove(f"{self.kit}/rt")
        wanted = f"there is no kit to build with: put one of logic {LOGIC} at {self.folder}/kit, or its rt on the PATH"
        self.assertEqual(self.install("--from-source", self.prefix), (1, f"install: {wanted}\n"))
        self.assertFalse(os.path.exists(self.prefix))

    def test_from_source_interrupted_goes_on_where_it_was(self) -> None:
        ended, said = self.stopped(signal.SIGTERM, 0.5, "install", "--from-source", self.prefix)
        self.assertEqual((ended, said.splitlines()[-1]), (130, "install: stopped; run it again to go on from here"))
        self.assertFalse(os.path.exists(self.prefix))
        self.assertIn("lost_low", "".join(self.proved()))
        self.assertEqual(self.install("--from-source", self.prefix)[0], 0)
        self.assertNotIn("lost_low ", "".join(self.proved()))
        self.assertEqual(self.outside_lib(self.prefix), self.wanted())
