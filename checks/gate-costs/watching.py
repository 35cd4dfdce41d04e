"""What the processes below one took of the processors, by crate and by what was done: looked at twice a second."""
import collections
import os
import re
import time

TICKS = os.sysconf("SC_CLK_TCK")
PAUSE = 0.5
CRATE = re.compile(r"--crate-name (\S+)")
PROGRAM = re.compile(r"/crates/(\w+)/out/")
EDIT_FOLDER = "/rt-edit-"


def processes():
    """Each process with its parent, when it began, and the seconds of processor time that it took so far."""
    found = {}
    for name in filter(str.isdigit, os.listdir("/proc")):
        try:
            with open(f"/proc/{name}/stat", encoding="utf-8", errors="replace") as file:
                text = file.read()
        except OSError:
            continue
        words = text[text.rindex(")") + 2 :].split()
        found[int(name)] = int(words[1]), int(words[19]), (int(words[11]) + int(words[12])) / TICKS
    return found


def below(root, found):
    """The processes below a process, each with the one of its forebears that the root itself began."""
    for number in found:
        at, top = number, None
        while at in found and at != root:
            at, top = found[at][0], at
        if at == root and top is not None:
            yield number, top


def seconds_below(root, spent):
    """The seconds of processor time below a process so far; `spent` keeps those of each process, since some have ended."""
    found = processes()
    spent.update({(number, found[number][1]): found[number][2] for number, _ in below(root, found)})
    return sum(spent.values())


def work_of(number):
    """The crate that a process works on, and what it does: `code`, `tests`, `edits` or `runs`. Nothing of any other process."""
    try:
        with open(f"/proc/{number}/cmdline", "rb") as file:
            words = file.read().replace(b"\0", b" ").decode(errors="replace")
        folder = os.readlink(f"/proc/{number}/cwd")
    except OSError:
        return None
    crate, program = CRATE.search(words), PROGRAM.search(words)
    if crate:
        kind = "edits" if EDIT_FOLDER in folder else "tests" if " --test" in words else "code"
        return crate[1], kind
    return (program[1], "runs") if program else None


def watched(child):
    """Waits for a child and gives the minutes of processor time below it, by crate and kind of work."""
    works, spent = {}, {}
    while child.poll() is None:
        found = processes()
        for number, top in below(child.pid, found):
            at = top, found[top][1]
            works[at] = works.get(at) or work_of(top)
            spent[number, found[number][1]] = found[number][2], at
        time.sleep(PAUSE)
    minutes = collections.Counter()
    for seconds, at in spent.values():
        if works[at]:
            minutes[works[at]] += seconds / 60
    return minutes
