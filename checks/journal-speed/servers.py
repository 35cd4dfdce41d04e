"""The server that is measured, with a journal and without, and what is asked of the process."""
import os
import subprocess

from server import Running, addresses, free_ports
from sides import IDLE

# No program but one with a sanitizer has so many addresses.
SANITIZED = 1 << 40


class Measured(Running):
    """lostd with one worker, a desk, and a map or a journal or both."""

    def __init__(self, program, *words):
        self.queries, self.desk_port = free_ports(2)
        super().__init__(program, [*addresses(self.queries, self.desk_port), "--workers", "1", *IDLE, *words])
        self.port = self.queries


def is_sanitized(program):
    """Whether a program is built with a sanitizer, by the addresses that it takes."""
    with Measured(program) as server, open(f"/proc/{server.process.pid}/status", encoding="ascii") as file:
        said = dict(line.split(":", 1) for line in file)
    return int(said["VmSize"].split()[0]) * 1024 > SANITIZED


def kind_of_disk(folder):
    """The kind of the file system of a folder."""
    return subprocess.run(["stat", "-f", "-c", "%T", folder], capture_output=True, text=True, check=True).stdout.strip()


def forget(path):
    """Has the system forget the pages that it keeps of a file, as a start over a journal has it."""
    with open(path, "rb") as file:
        os.fsync(file.fileno())
        os.posix_fadvise(file.fileno(), 0, 0, os.POSIX_FADV_DONTNEED)
