"""Which functions of a crate take longest to prove, by the modules that the prover writes as it goes."""
import collections
import os
import re
import subprocess
import time

from watching import seconds_below

PAUSE = 0.2
READING = "reading, and what comes before the first module"
# The modules of a function `a::b` are `a.b.Lts`, `a.b.Proof` and so on; those of a group that calls itself have `Lts-b`.
OF_FUNCTION = re.compile(
    r"proofs\.(.+?)\.(Lts|Proof|Tie|Reads|Answers|Goals|Kinds|Layout|Code|Named|Met|Statement|Given|TheLink|Invariants|Symbol|Paired)\b.*"
)


def modules_in(folder, name):
    """The modules of a crate that a check has written so far, each with the time at which it was."""
    found = {}
    for at, _, files in os.walk(folder):
        for file in files:
            if file.endswith(".oantt") and file.startswith(f"Rattle-{name}") and os.path.basename(at) != "records":
                try:
                    found[file.removeprefix(f"Rattle-{name}").removesuffix(".oantt").lstrip("-")] = os.stat(f"{at}/{file}").st_mtime
                except FileNotFoundError:
                    pass
    return found


def shares(times, began, spent):
    """The seconds of processor time for each of some modules, in the order of their times: those from the one before to it."""
    last, whole = began, max(times.values()) - began
    for module, ended in sorted(times.items(), key=lambda it: it[1]):
        yield module, spent * (ended - last) / whole if whole > 0 else 0.0
        last = max(last, ended)


def took_by_module(folder, name):
    """Checks a crate from nothing, and gives the seconds of processor time for each of its modules."""
    took, known, counted = {}, {}, {}
    began, before = time.time(), 0.0
    words = ["rt", "check", "--jobs", "1"]
    with subprocess.Popen(words, cwd=folder, stdout=subprocess.DEVNULL, stderr=subprocess.DEVNULL) as child:
        is_over = False
        while not is_over:
            time.sleep(PAUSE)
            is_over = child.poll() is not None
            now = before if is_over else seconds_below(child.pid, counted)
            new = {it: ended for it, ended in modules_in(f"{folder}/out/incremental", name).items() if it not in known}
            if new:
                took.update((it if took else READING, seconds) for it, seconds in shares(new, began, now - before))
                known.update(new)
                began, before = max(began, *new.values()), now
    return took, child.returncode


def by_function(took):
    """The seconds for each function, in all and by kind of module; a module of no function stands for itself."""
    found = collections.defaultdict(collections.Counter)
    for module, seconds in took.items():
        of = OF_FUNCTION.fullmatch(module)
        found[re.sub(r"\.(Lts|Code)$", "", of[1]) if of else module or "the whole crate"][of[2] if of else "module"] += seconds
    return found


def lines_of(took, shown):
    """A line for each of the functions that took longest: the seconds, its name, and what took most of them."""
    found = sorted(by_function(took).items(), key=lambda it: -it[1].total())
    for function, kinds in found[:shown]:
        parts = ", ".join(f"{kind} {seconds:.1f}" for kind, seconds in kinds.most_common(3) if seconds >= 0.5)
        yield f"{kinds.total():7.1f} {function.replace('.', '::')}  ({parts})"
