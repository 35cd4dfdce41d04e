"""What a crash may leave of a file: what was flushed, and of each later call something between nothing and all of it."""
from recorded import CUT, FLUSH, WRITE

NOTHING, HALF, ZEROS, GARBAGE, MIXED = TEARS = ["nothing", "half", "zeros", "garbage", "mixed"]
# Bytes that stand elsewhere in the file, as where the disk has an old copy of it; not among those that are always tried.
STALE = "stale"
OLD, NEW = "old", "new"
PIECES = {MIXED: [OLD, NEW, ZEROS, GARBAGE], STALE: [OLD, NEW, STALE]}
MOST_PIECES = 6
SECTOR = 512


def made(file, call):
    """A file after a call."""
    if call.name == CUT:
        return file[: call.at].ljust(call.at, b"\0")
    if call.name == WRITE:
        return file[: call.at].ljust(call.at, b"\0") + call.data + file[call.at + len(call.data) :]
    return file


class Crashed:
    """A file that a server wrote until it was killed: what was flushed last, and the calls since. One that failed may have been
    made or not, and a flush that failed has flushed nothing."""

    def __init__(self, before, calls):
        self.flushed, self.since, now = before, [], before
        for call in calls:
            if call.name == FLUSH and call.is_done:
                self.flushed, self.since = now, []
            elif call.name != FLUSH:
                self.since.append(call)
                now = made(now, call) if call.is_done else now
        self.last = now

    def may_be(self, file):
        """Whether a file is what these calls leave where the machine goes on: one that was killed may have been made."""
        return file == self.last or any(not call.is_done and file == made(self.last, call) for call in self.since[-1:])

    def lacks_one(self, file):
        """Whether a file has more behind what these calls leave. It happens once in some hundred kills: strace has not written the last call."""
        return not self.may_be(file) and len(file) > len(self.last) and file.startswith(self.last)

    def shorter(self, dice):
        """The file, cut anywhere behind what was flushed."""
        return self.last[: dice.randint(min(len(self.flushed), len(self.last)), len(self.last))]

    def torn(self, dice, kind):
        """The file as a power cut may leave it, where each write since the last flush left something of a kind."""
        file = self.flushed
        for call in self.since:
            file = torn_cut(dice, file, call.at) if call.name == CUT else torn_write(dice, file, call, kind)
        return file


def torn_cut(dice, file, length):
    """A file of which a change of the length is made, is not made, or is made in part."""
    between = dice.randint(*sorted((len(file), length)))
    chosen = dice.choice([len(file), length, length, between])
    return file[:chosen].ljust(chosen, b"\0")


def torn_write(dice, file, call, kind):
    """A file of which a write is made in part. A single byte, as a gate is, stays or is written."""
    old, new = file[call.at : call.at + len(call.data)], call.data
    if kind == NOTHING or len(new) == 1:
        return dice.choice([file, made(file, call)]) if len(new) == 1 else file
    body = file[: call.at].ljust(call.at, b"\0") + left_of(dice, file, old, new, kind)
    return body + file[len(body) :]


def left_of(dice, file, old, new, kind):
    """What is left of a write of `new` over `old`, which may be shorter, as may be what is left."""
    if kind == HALF:
        count = dice.randint(0, len(new))
        return new[:count] + old[count:]
    if kind not in PIECES:
        return filled(dice, file, len(new), kind)
    places = sorted({0, len(new), *(dice.randint(0, len(new)) for _ in range(dice.randint(1, MOST_PIECES)))})
    kinds = PIECES[kind]
    return b"".join(piece_of(dice, file, old, new, first, end, dice.choice(kinds)) for first, end in zip(places, places[1:]))


def piece_of(dice, file, old, new, first, end, kind):
    """A piece of what is left: old, new, zeros, garbage or other bytes of the file."""
    if kind in (OLD, NEW):
        return (new if kind == NEW else old)[first:end].ljust(end - first, b"\0")
    return filled(dice, file, end - first, kind)


def filled(dice, file, count, kind):
    """So many zeros, bytes of any kind, or bytes that stand elsewhere in the file."""
    if kind == ZEROS:
        return bytes(count)
    if kind == GARBAGE:
        return dice.randbytes(count)
    begin = dice.randint(0, len(file) // SECTOR) * SECTOR
    return file[begin : begin + count].ljust(count, b"\0")
