"""./build and ./lostd, with a stand-in for the kit."""
from __future__ import annotations

import contextlib
import errno
import fcntl
import io
import os
import shutil
import signal
import tempfile
import unittest

from building.faults import OWN_CLONE, status_of, unwritten
from building.files import write_file
from building.kit import LOGIC
from tests.checkout import CRATES, Checkout
from tests.running import CASES

ALL = ["lost_left", "lost_low", "lost_right", "lostd"]
FULL = "the disk is full: free some space, and run this again"
NO_KIT = f"there is no kit to build with: put one of logic {LOGIC} at "


class Build(Checkout):
    """What a build does, and how it fails."""

    def names(self) -> list:
        return sorted(line.split()[0] for line in self.proved())

    def build(self, *words: str) -> str:
        """A build that must succeed; what it says on standard error."""
        status, out, said = self.run_script("build", *words)
        self.assertEqual((status, out), (0, "build: proved, and built crates/lostd/out/lostd\n"), said)
        return said

    def fault(self, script: str = "build") -> str:
        """What a command says that must fail, in its last line; it must have proved nothing."""
        status, out, said = self.run_script(script)
        self.assertEqual((status, out), (1, ""), said)
        self.assertEqual(self.proved(), [])
        return said.splitlines()[-1]

    def is_clean(self) -> None:
        """Nothing of the copies is left."""
        self.assertFalse(os.path.exists(f"{self.top}/.git/lostd-build"))
        self.assertEqual(self.git("status", "--porcelain"), "")

    def test_the_crates_of_the_program_are_proved_once(self) -> None:
        said = self.build("--jobs", "2")
        self.assertIn("build: 4 crates, up to 2 at a time; it takes up to 1 MB of disk, and ", said)
        self.assertEqual(self.names(), ALL)
        self.is_clean()
        self.assertTrue(os.path.isfile(f"{self.top}/crates/lost_low/out/rlib/stamp"))
        self.assertEqual(self.run_script("build")[:2], (0, "build: nothing to do: crates/lostd/out/lostd was built from these sources\n"))
        self.assertEqual(self.run_script("lostd", "--version")[:2], (0, "lostd 0.0.7\n"))
        self.assertEqual(self.proved(), [])

    def test_the_crate_with_the_longest_chain_gets_all_jobs(self) -> None:
        self.build("--jobs", "4")
        jobs = {line.split()[0]: line.split()[3] for line in self.proved()}
        self.assertEqual(jobs, {"lost_low": "4", "lost_left": "4", "lost_right": "3", "lostd": "4"})

    def test_only_what_changed_is_proved_again_over_its_kept_work(self) -> None:
        self.build()
        self.proved()
        self.change("crates/lost_left/src/lib.rt", "lost_left", "lost_gauche")
        self.build()
        self.assertEqual([line.split(" over ")[1] for line in self.proved() if line.startswith("lost_left")], ["lost_left"])
        self.change("crates/lost_bench/src/lib.rt", "lost_bench", "lost_bank")
        self.assertIn("nothing to do", self.run_script("build")[1])

    def test_an_interrupted_build_goes_on_where_it_was(self) -> None:
        for by, status in ((signal.SIGINT, 130), (signal.SIGTERM, 130), (signal.SIGKILL, -9)):
            with self.subTest(by=by):
                ended, said = self.stopped(by, 1.5, "build", "--jobs", "2")
                self.assertEqual(ended, status)
                if by != signal.SIGKILL:
                    self.assertEqual(said.splitlines()[-1], "build: stopped; run it again to go on from here")
                    self.is_clean()
                self.assertIn("lost_low", self.names())
                self.build()
                again = self.names()
                if by == signal.SIGKILL:
                    # what it had begun may have ended without it, before the next build looked
                    self.assertEqual(sorted({*again, "lost_left", "lost_right"}), ["lost_left", "lost_right", "lostd"])
                else:
                    self.assertEqual(again, ["lost_left", "lost_right", "lostd"])
                self.is_clean()
                for name in CRATES:
                    shutil.rmtree(f"{self.top}/crates/{name}/out", ignore_errors=True)

    def test_lostd_interrupted_while_it_builds_goes_on_where_it_was(self) -> None:
        ended, said = self.stopped(signal.SIGINT, 0.5, "lostd", "--version")
        self.assertEqual((ended, said.splitlines()[-1]), (130, "lostd: stopped; run it again to go on from here"))
        self.is_clean()
        self.assertIn("lost_low", self.names())
        self.assertEqual(self.run_script("lostd", "--version")[:2], (0, "lostd 0.0.7\n"))
        self.assertNotIn("lost_low", self.names())

    def test_a_crate_that_is_not_proved(self) -> None:
        self.change("crates/lost_right/src/lib.rt", "{}", "{ WRONG }")
        status, _, said = self.run_script("build", "--jobs", "1")
        self.assertEqual(status, 1)
        self.assertIn(f"build: lost_right was not proved and built; its last lines in the log {self.top}/out/build.log are:\n", said)
        self.assertIn("fn lost_right::f: not proved\n", said)
        self.assertNotIn("lostd", self.names())
        self.assertEqual(self.run_script("lostd", "--version")[0], 1)

    def test_one_build_at_a_time(self) -> None:
        opened = os.open(f"{self.top}/.git", os.O_RDONLY)
        self.addCleanup(os.close, opened)
        fcntl.flock(opened, fcntl.LOCK_EX)
        self.assertEqual(self.fault(), "build: another build of this checkout is running: wait for it")

    def test_no_kit(self) -> None:
        os.remove(f"{self.kit}/rt")
        self.assertEqual(self.fault(), f"build: {NO_KIT}{self.folder}/kit, or its rt on the PATH")
        self.assertEqual(self.fault("lostd"), f"lostd: there is no packaged program, and {NO_KIT}{self.folder}/kit, or its rt on the PATH")

    def test_a_kit_of_another_logic(self) -> None:
        self.write(f"{self.kit}/KIT-ID", "rattle-kit-99 logic 0123456789abcdef")
        kit = f"the kit of {self.kit}/rt is 'rattle-kit-99 logic 0123456789abcdef'"
        wanted = f"{kit}, but these sources are proved in logic {LOGIC}: use a kit of that logic"
        self.assertEqual(self.fault(), f"build: {wanted}")
        self.assertEqual(self.fault("lostd"), f"lostd: there is no packaged program, and {wanted}")

    def test_the_kit_of_the_path_comes_first(self) -> None:
        path = f"{self.folder}/commands"
        shutil.copy(f"{CASES}/building/rt", path)
        self.write(f"{path}/KIT-ID", "rattle-kit-99 logic 0123456789abcdef")
        kit = f"the kit of {path}/rt is 'rattle-kit-99 logic 0123456789abcdef'"
        self.assertEqual(self.fault(), f"build: {kit}, but these sources are proved in logic {LOGIC}: use a kit of that logic")

    def test_a_kit_that_does_not_run(self) -> None:
        for text in ("#!/bin/sh\nexit 3\n", "#!/nowhere\n"):
            self.write(f"{self.kit}/rt", text)
            self.assertEqual(self.fault(), f"build: {self.kit}/rt version does not run: put a kit of logic {LOGIC} there")

    def test_too_little_memory(self) -> None:
        self.change("tools/building/schedule.py", " = 1, 0.8, 0.1", " = 900_000_000, 0, 0")
        wanted = r"^build: [\d,]+ MB of memory are free, but a proof takes up to 900,000,000: end other programs, or use a larger machine$"
        self.assertRegex(self.fault(), wanted)

    def test_too_little_disk(self) -> None:
        self.change("tools/building/machine.py", "DISK = 1", "DISK = 900_000_000")
        wanted = r"^build: [\d,]+ MB of disk are free at .*, but a build takes up to 900,000,000: free some, or clone onto a larger disk$"
        self.assertRegex(self.fault(), wanted)

    def failed(self, word: str) -> str:
        """What a build of two jobs says in its last line, where a word makes one proof fail."""
        self.change("crates/lost_right/src/lib.rt", "{}", f"{{ {word} }}")
        status, out, said = self.run_script("build", "--jobs", "2")
        self.assertEqual((status, out), (1, ""), said)
        self.is_clean_but_for("crates/lost_right/src/lib.rt")
        return said.splitlines()[-1]

    def is_clean_but_for(self, path: str) -> None:
        """Nothing of the copies is left, after a change of one file."""
        self.git("checkout", "--quiet", path)
        self.is_clean()

    def test_a_proof_that_is_killed(self) -> None:
        wanted = "the proof of lost_right was killed, most likely because memory ran out: run ./build --jobs 1"
        self.assertEqual(self.failed("KILLED"), f"build: {wanted}")
        wanted = "signal 15 ended the proof of lost_right: run this again to go on from here"
        self.assertEqual(self.failed("ENDED"), f"build: {wanted}")
        self.build()

    def test_a_disk_that_fills_up_meanwhile(self) -> None:
        self.change("tools/building/machine.py", "LEAST_DISK = 100", "LEAST_DISK = 900_000_000")
        self.commit()
        self.assertEqual(self.failed("WRONG"), f"build: {FULL}")

    def test_a_log_for_which_the_disk_is_full(self) -> None:
        os.makedirs(f"{self.top}/out")
        os.symlink("/dev/full", f"{self.top}/out/build.log")
        status, out, said = self.run_script("build")
        self.assertEqual((status, out, said.splitlines()[-1]), (1, "", f"build: {FULL}"))
        self.is_clean()

    def test_a_program_of_other_sources_is_not_run(self) -> None:
        self.build()
        self.write(f"{self.top}/crates/lostd/out/lostd", "#!/bin/sh\necho another\n")
        self.assertEqual(self.run_script("lostd", "--version")[1], "lostd 0.0.7\n")

    def test_the_program_reads_its_own_input(self) -> None:
        self.assertEqual(self.run_script("lostd", "replay", given="a\nb\n")[:2], (0, "a\nb\n"))
        self.assertEqual(self.run_script("lostd", "replay", given="c\n"), (0, "c\n", ""))


class Lines(unittest.TestCase):
    """What is said of errors of the system."""

    def said(self, error: BaseException) -> str:
        """The line about an error that ends a command with status 1."""

        def work() -> int:
            raise error

        with contextlib.redirect_stderr(io.StringIO()) as told:
            self.assertEqual(status_of("build", work), 1)
        return told.getvalue()

    def test_a_full_disk(self) -> None:
        for number in (errno.ENOSPC, errno.EDQUOT):
            error = OSError(number, os.strerror(number), "a/b")
            self.assertEqual(self.said(error), f"build: {FULL}\n")
            self.assertEqual(self.said(shutil.Error([("a", "b", str(error))])), f"build: {FULL}\n")
            self.assertEqual(str(unwritten("a/b", error, OWN_CLONE)), FULL)

    def test_a_folder_of_somebody_else(self) -> None:
        for number in (errno.EACCES, errno.EROFS):
            error = OSError(number, os.strerror(number), "a/b")
            self.assertEqual(self.said(error), f"build: a/b cannot be written ({os.strerror(number)}): run it in a clone of your own\n")

    def test_any_other_error_is_a_mistake_of_the_scripts(self) -> None:
        with self.assertRaises(FileNotFoundError):
            self.said(FileNotFoundError(errno.ENOENT, "not there", "a/b"))

    def test_nothing_is_left_of_a_file_that_could_not_be_written(self) -> None:
        with tempfile.TemporaryDirectory() as folder:
            os.mkdir(f"{folder}/lostd")
            with self.assertRaises(OSError):
                write_file(f"{folder}/lostd", b"a program")
            self.assertEqual(os.listdir(folder), ["lostd"])
