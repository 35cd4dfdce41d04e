"""How many instructions lines take: a replay under valgrind, whose counter is asked between them."""
import os
import re
import shutil
import subprocess

from programs import Failed, Program, Replay

PATIENCE = 60
COUNTED = re.compile(rb"^summary: (\d+)$", re.MULTILINE)


class NotCounted(Exception):
    """Why no instructions can be counted."""


class UnderValgrind(Program):
    """The program under valgrind, all of whose files are in a folder."""

    def __init__(self, program, folder):
        super().__init__(program.title, program.path, is_lostd=True)
        self.folder = folder

    def replay_words(self):
        """The command line of a replay."""
        files = [f"--callgrind-out-file={self.folder}/counted", f"--log-file={self.folder}/said", f"--vgdb-prefix={self.folder}/vgdb"]
        return ["valgrind", "--tool=callgrind", *files, *super().replay_words()]


class Counted(Replay):
    """A replay that runs under valgrind. Used as a Replay is, but what a line costs are instructions."""

    def __init__(self, program, folder):
        if not (shutil.which("valgrind") and shutil.which("vgdb")):
            raise NotCounted("valgrind is missing: apt-get install valgrind")
        self.folder, self.dumps = folder, 0
        super().__init__(UnderValgrind(program, folder))

    def dump(self):
        """Has valgrind write down what it counted, and begin anew; the number."""
        words = ["vgdb", f"--vgdb-prefix={self.folder}/vgdb", f"--pid={self.process.pid}", "dump"]
        try:
            ran = subprocess.run(words, stdin=subprocess.DEVNULL, capture_output=True, timeout=PATIENCE)
        except subprocess.TimeoutExpired:
            raise NotCounted(f"vgdb does not reach valgrind within {PATIENCE} seconds") from None
        if ran.returncode:
            raise NotCounted(f"vgdb does not reach valgrind: status {ran.returncode}")
        self.dumps += 1
        path = f"{self.folder}/counted.{self.dumps}"
        with open(path, "rb") as file:
            found = COUNTED.search(file.read())
        os.remove(path)
        if not found:
            raise NotCounted("valgrind does not say how many")
        return int(found[1])

    def ask(self, pieces, count):
        """The replies to pieces with so many lines, and the instructions that they took."""
        try:
            replies, _ = super().ask(pieces, count)
        except Failed:
            raise NotCounted("the program does not run under valgrind; one of ./build --portable does") from None
        return replies, self.dump()
