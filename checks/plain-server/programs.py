"""The two programs, as processes that are fed lines."""
import os
import subprocess
import threading
import time

NAME = ["--name", "lost.example"]
NOW = ["--now", "2026-01-01T00:00:00Z"]
# More lines than any run here has; of lostd alone.
MOST_LINES = ["--lines", "4294967295"]
PIECE = 1 << 20


class Failed(Exception):
    """A program did not do what it should."""


class Program:
    """One of the two programs."""

    def __init__(self, title, path, is_lostd):
        self.title, self.path, self.is_lostd = title, path, is_lostd

    def replay_words(self):
        """The command line of a replay."""
        return [self.path, "replay", *NAME, *NOW, *(MOST_LINES if self.is_lostd else [])]

    def serve_words(self, queries, desk, workers):
        """The command line of a server at two ports. Older lostd must be told how many connections it serves."""
        words = ["--queries", f"127.0.0.1:{queries}", "--desk", f"127.0.0.1:{desk}", "--workers", str(workers)]
        more = ["--connections", "1000000", "--idle", "0"] if self.is_lostd else []
        return [self.path, "serve", *NAME, *words, *more]


def processor_seconds(process):
    """The processor time that a running process has taken, of all its threads."""
    return time.clock_gettime(~process.pid << 3 | 2)


def most_resident(process):
    """The most bytes that a running process has had resident."""
    with open(f"/proc/{process.pid}/status") as file:
        said = dict(line.split(":", 1) for line in file)
    return int(said["VmHWM"].split()[0]) * 1024


class Replay:
    """A replay that runs; lines are put into it, and its replies taken, in turn."""

    def __init__(self, program):
        self.program = program
        self.process = subprocess.Popen(
            program.replay_words(), stdin=subprocess.PIPE, stdout=subprocess.PIPE, pipesize=PIECE, bufsize=0
        )

    def __enter__(self):
        return self

    def __exit__(self, *_):
        self.process.kill()
        self.process.communicate()

    def put(self, pieces):
        """Writes pieces of lines; a program that has ended is seen where its replies are taken."""
        try:
            for piece in pieces:
                view = memoryview(piece)
                while view:
                    view = view[os.write(self.process.stdin.fileno(), view):]
        except BrokenPipeError:
            pass

    def ask(self, pieces, count):
        """The replies to pieces with so many lines, and the processor time that they took."""
        begun = processor_seconds(self.process)
        writer = threading.Thread(target=self.put, args=(pieces,), daemon=True)
        writer.start()
        replies = self.take(count)
        spent = processor_seconds(self.process) - begun
        writer.join()
        return replies, spent

    def take(self, count):
        """So many replies."""
        taken = []
        while count > 0:
            piece = os.read(self.process.stdout.fileno(), PIECE)
            if not piece:
                raise Failed(f"{self.program.title} ended with status {self.process.wait()} before its replies were read")
            count -= piece.count(b"\n")
            taken.append(piece)
        return b"".join(taken)


def file_pieces(path):
    """The bytes of a file, in pieces."""
    with open(path, "rb") as file:
        while piece := file.read(PIECE):
            yield piece
