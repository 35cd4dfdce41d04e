"""The packaged program: ./lostd over it, and release/check, verify and make, with a stand-in for the kit."""
from __future__ import annotations

import os
import shutil

from building.kit import LOGIC
from building.package import FILE, MANIFEST, UNPACKED, package_of
from building.trees import trees_of
from tests.checkout import IDENTITY, Checkout

CHANGED = "the sources have changed since the packaged program was made"
AGAIN = "get it again with `git checkout -- release`, or build with ./build"


class Package(Checkout):
    """Each test begins with a package of the sources, and without a kit on the PATH."""

    def setUp(self) -> None:
        super().setUp()
        self.pack()
        self.commit()

    def said(self, script: str, wanted: int = 0) -> str:
        """All that a command says, which must end with that status."""
        status, out, said = self.run_script(script)
        self.assertEqual(status, wanted, out + said)
        return out + said

    def test_it_runs_without_a_kit(self) -> None:
        shutil.rmtree(self.kit)
        for _ in range(2):
            self.assertEqual(self.run_script("lostd", "replay", given="a\n"), (0, "a\n", ""))
        self.assertEqual(self.git("status", "--porcelain"), "")

    def test_its_trees_are_those_of_git(self) -> None:
        names = self.git("rev-parse", "HEAD:crates", "HEAD:crates.txt").split()
        self.assertEqual(list(trees_of(self.top)), names)
        with open(f"{self.top}/{MANIFEST}", encoding="utf-8") as file:
            self.assertIn(f"crates: {names[0]}\ncrates.txt: {names[1]}\nkit: {IDENTITY}\nprocessor: x86-64-v2\n", file.read())

    def test_links_modes_and_folders_count_as_in_git(self) -> None:
        self.write(f"{self.top}/crates/a/b.rt", "")
        self.write(f"{self.top}/crates/a.b/c", "")
        self.write(f"{self.top}/crates/a/run", "")
        self.write(f"{self.top}/crates/a/out/made", "")
        os.chmod(f"{self.top}/crates/a/run", 0o755)
        os.symlink("a/run", f"{self.top}/crates/link")
        os.makedirs(f"{self.top}/crates/empty/also")
        self.commit()
        self.assertEqual(trees_of(self.top).crates, self.git("rev-parse", "HEAD:crates"))

    def test_a_change_of_the_sources_builds(self) -> None:
        changes = (
            lambda: self.change("crates/lost_low/src/lib.rt", "{}", "{ }"),
            lambda: self.write(f"{self.top}/crates/lost_bench/new", ""),
            lambda: self.change("crates.txt", "# the", "# all"),
            lambda: os.chmod(f"{self.top}/crates/lost_low/src/lib.rt", 0o755),
        )
        for place, change in enumerate(changes):
            with self.subTest(place=place):
                change()
                status, out, said = self.run_script("lostd", "--version")
                self.assertEqual((status, out), (0, "lostd 0.0.7\n"))
                wanted = f"lostd: {CHANGED}: proving and building it from the sources, up to half an hour, as ./build does"
                self.assertEqual(said.splitlines()[0], wanted)
                shutil.rmtree(f"{self.top}/crates/lostd/out")
                self.git("checkout", "--quiet", ".")
                self.git("clean", "--quiet", "--force", "-d")

    def test_changed_sources_without_a_kit(self) -> None:
        os.remove(f"{self.kit}/rt")
        self.change("crates/lost_low/src/lib.rt", "{}", "{ }")
        remedy = f"put one of logic {LOGIC} at {self.folder}/kit, or its rt on the PATH"
        self.assertEqual(self.said("lostd", 1), f"lostd: {CHANGED}, and there is no kit to build with: {remedy}\n")

    def test_what_was_built_comes_first(self) -> None:
        self.run_script("build")
        os.remove(f"{self.top}/{FILE}")
        self.assertEqual(self.run_script("lostd", "--version"), (0, "lostd 0.0.7\n", ""))

    def test_a_damaged_package_is_never_run(self) -> None:
        self.damage()
        for script in ("lostd", "install", "release/check", "release/verify"):
            self.assertRegex(self.said(script, 1), rf"^{script}: {FILE} (is damaged|cannot be unpacked).*: {AGAIN}\n$")
        self.assertFalse(os.path.exists(f"{self.top}/{UNPACKED}"))

    def test_a_package_that_came_in_part_is_never_run(self) -> None:
        with open(f"{self.top}/{FILE}", "rb") as file:
            whole = file.read()
        for part in (b"", whole[:-1], whole[: len(whole) // 2]):
            with open(f"{self.top}/{FILE}", "wb") as file:
                file.write(part)
            self.assertRegex(self.said("lostd", 1), rf"^lostd: {FILE} cannot be unpacked \(.*\): {AGAIN}\n$")
        os.remove(f"{self.top}/{FILE}")
        self.assertRegex(self.said("lostd", 1), rf"^lostd: {FILE} cannot be unpacked \(.*No such file.*\): {AGAIN}\n$")
        self.git("checkout", "--quiet", "--", "release")
        self.assertEqual(self.run_script("lostd", "--version"), (0, "lostd 0.0.7\n", ""))

    def test_a_place_that_cannot_be_unpacked_to(self) -> None:
        self.write(f"{self.top}/{os.path.dirname(UNPACKED)}", "")
        wanted = f"lostd: {UNPACKED} cannot be written (File exists): run it in a clone of your own\n"
        self.assertEqual(self.said("lostd", 1), wanted)

    def test_a_package_of_another_checksum_is_never_run(self) -> None:
        self.change(MANIFEST, "sha256: ", "sha256: 0")
        wanted = f"lostd: {FILE} is damaged (its checksum is not the one in {MANIFEST}): {AGAIN}\n"
        self.assertEqual(self.said("lostd", 1), wanted)
        self.change(MANIFEST, "sha256: ", "sum: ")
        self.assertEqual(self.said("lostd", 1), f"lostd: {MANIFEST} cannot be read: {AGAIN}\n")

    def test_an_unpacked_program_that_was_changed_is_not_run(self) -> None:
        self.run_script("lostd", "--version")
        self.write(f"{self.top}/{UNPACKED}", "#!/bin/sh\necho another\n")
        self.assertEqual(self.run_script("lostd", "--version"), (0, "lostd 0.0.7\n", ""))

    def test_the_gate_is_told_of_it(self) -> None:
        wanted = "release/check: the packaged program is of these sources, and gives the stored replies in all 1 sessions of examples/\n"
        self.assertEqual(self.said("release/check"), wanted)
        self.write(f"{self.top}/examples/one.expected", "another\n")
        differs = "and its replies differ from the stored ones in 1 of 1 sessions of examples/; release/make makes a new one"
        wanted = f"release/check: the packaged program was not built from these sources, {differs}\n"
        self.assertEqual(self.said("release/check"), wanted)
        self.pack()
        wanted = "release/check: the packaged program's replies differ from the stored ones: one; release/make makes a new one\n"
        self.assertEqual(self.said("release/check", 1), wanted)
        shutil.rmtree(f"{self.top}/release/out")
        os.remove(f"{self.top}/{MANIFEST}")
        self.assertEqual(self.said("release/check"), "")

    def test_verify(self) -> None:
        self.assertIn("release/verify: the same ", self.said("release/verify"))
        self.assertEqual(len(self.proved()), 4)
        self.pack_of("echo another\n")
        self.assertIn("\nrelease/verify: NOT the same: the sources give a program with the checksum ", self.said("release/verify", 1))
        self.change("crates/lost_low/src/lib.rt", "{}", "{ }")
        wanted = "release/verify: the package was made from other sources: check out the commit that `git log -1 release/MANIFEST` names\n"
        self.assertEqual(self.said("release/verify", 1), wanted)

    def pack_of(self, text: str) -> None:
        """Makes a package of another program than the sources give."""
        self.change("crates/lostd/src/main.rt", "#!/bin/sh\n", f"#!/bin/sh\n{text}")
        self.pack()
        manifest = package_of(self.top).manifest
        self.git("checkout", "--quiet", "crates")
        trees = trees_of(self.top)
        self.write(f"{self.top}/{MANIFEST}", manifest._replace(trees=trees).text())

    def test_make(self) -> None:
        for check in ("tools/test", "checks/oracle/run"):
            self.write(f"{self.top}/{check}", "#!/bin/sh\ntest -x crates/lostd/out/lostd && echo ran\n")
            os.chmod(f"{self.top}/{check}", 0o755)
        os.remove(f"{self.top}/{FILE}")
        os.remove(f"{self.top}/{MANIFEST}")
        self.assertIn("release/make: the checkout has changes that are not committed", self.said("release/make", 1))
        self.commit()
        said = self.said("release/make")
        self.assertEqual(said.count("\nran\n"), 2, said)
        self.assertEqual(self.git("status", "--porcelain").split(), ["??", MANIFEST, "??", FILE])
        self.assertFalse(os.path.exists(f"{self.top}/.git/lostd-release"))
        self.commit()
        self.assertIn("release/verify: the same ", self.said("release/verify"))

    def test_make_with_a_check_that_fails(self) -> None:
        self.write(f"{self.top}/tools/test", "#!/bin/sh\nexit 1\n")
        os.chmod(f"{self.top}/tools/test", 0o755)
        self.commit()
        self.assertIn("release/make: tools/test failed against the program\n", self.said("release/make", 1))
        self.assertEqual(self.git("status", "--porcelain"), "")
