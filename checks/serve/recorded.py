"""Runs a server under strace, and reads which calls it made on its journal."""
import re
from typing import NamedTuple

STRACE = {"/usr/bin/strace": "strace"}
WRITE, CUT, FLUSH = "pwrite64", "ftruncate", "fdatasync"
# The calls that a journal gets, and others that write or flush, so that the record lacks none.
CALLS = [WRITE, CUT, FLUSH, "fsync", "write", "writev", "pwritev", "pwritev2", "fallocate", "sync_file_range"]
FLUSHES = (FLUSH, "fsync")
# The first word is a file for the number of the process that is watched.
WITH_NUMBER = 'echo $$ > "$0"; exec "$@"'
LONGEST = 1 << 22
BEGUN = re.compile(r"^(\d+) +(\w+)\((\d+)<([^>]*)>(?:\(deleted\))?(.*)$")
RESUMED = re.compile(r"^(\d+) +<\.\.\. (\w+) resumed>(.*)$")
UNFINISHED = " <unfinished ...>"
RESULT = re.compile(r"^(.*?)\)\s*= (\S+)")
HEX = re.compile(r"\\x([0-9a-f]{2})")


class Unknown(Exception):
    """The record has a call that no model of the file is made for."""


class Call(NamedTuple):
    """A call on the journal: what it writes at which offset, or the new length as an offset. One that was killed may have been made."""

    name: str
    at: int
    data: bytes
    is_done: bool
    is_failed: bool


class Record:
    """The record of a server's calls on the journal at a path, in files of a folder."""

    def __init__(self, folder, journal, *more):
        self.calls_path, self.number_path, self.journal, self.more = f"{folder}/calls", f"{folder}/number", journal, more

    def words(self):
        """The words that start a program which is watched. (With --seccomp-bpf other calls cost nothing, but strace fails none.)"""
        with open(self.number_path, "w", encoding="ascii"):
            pass
        fast = [] if self.more else ["--seccomp-bpf"]
        watch = ["strace", "-f", *fast, "-y", "-xx", "-s", str(LONGEST), "-e", f"trace={','.join(CALLS)}", *self.more]
        return [*watch, "-o", self.calls_path, "/bin/sh", "-c", WITH_NUMBER, self.number_path]

    def number(self):
        """The number of the process that is watched; None before it began."""
        with open(self.number_path, encoding="ascii") as file:
            return int(file.read() or 0) or None

    def calls(self):
        """The calls on the journal, in their order."""
        with open(self.calls_path, encoding="ascii", errors="replace") as file:
            return [call for call in map(self.read_call, whole_lines(file)) if call]

    def read_call(self, line):
        """The call of a line; None where it is on another file."""
        begun = BEGUN.match(line)
        if not begun or not text_of(begun[4]).decode(errors="replace").startswith(self.journal):
            return None
        _, name, _, _, rest = begun.groups()
        ended = RESULT.match(rest)
        result = ended[2] if ended else "?"
        arguments = [word.strip(', ') for word in re.split(r', (?=[0-9"])', (ended[1] if ended else rest).strip(", "))]
        return call_of(name, [word for word in arguments if word], result)


def whole_lines(file):
    """The lines of a record; a call that was interrupted by others is one line."""
    begun = {}
    for line in file:
        line = line.rstrip("\n")
        number, resumed = line.partition(" ")[0], RESUMED.match(line)
        if line.endswith(UNFINISHED):
            begun[number] = line[: -len(UNFINISHED)]
        elif resumed:
            yield begun.pop(number, "") + resumed[3]
        else:
            yield line
    yield from begun.values()


def text_of(text):
    """The bytes of a text that strace writes in hexadecimal digits."""
    return bytes.fromhex("".join(HEX.findall(text))) if "\\x" in text else text.encode()


def call_of(name, arguments, result):
    """The call of a name with these arguments behind the file, and its result."""
    is_done, is_failed = result not in ("?", "-1"), result == "-1"
    if name == WRITE:
        data, offset = text_of(arguments[0]), int(arguments[-1])
        return Call(WRITE, offset, data[: int(result)] if is_done else data, is_done, is_failed)
    if name == CUT:
        return Call(CUT, int(arguments[0]), b"", is_done, is_failed)
    if name in FLUSHES:
        return Call(FLUSH, 0, b"", is_done, is_failed)
    raise Unknown(f"the journal gets {name}")
