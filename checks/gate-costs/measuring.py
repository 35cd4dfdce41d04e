"""Proves crates on copies of the repository, and says what that took."""
import os
import resource
import shutil
import subprocess
import sys
import tempfile
import time

from costs import Costs, sum_of
from crates import TOP, below, copied, edits_in, has_tests, lines_of_code, lowest_first
from functions import lines_of, took_by_module
from watching import watched

SHOWN = 40
ONE_JOB = {**os.environ, "RT_JOBS": "1"}
NOTHING = ["rt", "check", "--jobs", "1", "--only", ""]


def minutes(words, folder):
    """The minutes of processor time that a command took, which has to end well."""
    before = resource.getrusage(resource.RUSAGE_CHILDREN)
    ran = subprocess.run(words, cwd=folder, env=ONE_JOB, stdout=subprocess.PIPE, stderr=subprocess.STDOUT, text=True, errors="replace")
    after = resource.getrusage(resource.RUSAGE_CHILDREN)
    if ran.returncode:
        sys.exit(f"{' '.join(words)} failed in {folder}:\n{ran.stdout[-2000:]}")
    return (after.ru_utime + after.ru_stime - before.ru_utime - before.ru_stime) / 60


def edits_of(name):
    return len(edits_in(f"{TOP}/crates/{name}/must-fail"))


def measured(top, name):
    """What a crate costs by itself. A crate with tests is proved a second time, from nothing."""
    folder = f"{top}/crates/{name}"
    costs = Costs(lines_of_code(name), tried=edits_of(name))
    # readies the crates below, and counts for none
    subprocess.run(NOTHING, cwd=folder, capture_output=True)
    costs.reading = minutes(NOTHING, folder)
    shutil.rmtree(f"{folder}/out", ignore_errors=True)
    costs.tests = minutes(["rt", "test", "--jobs", "1"], folder) if has_tests(name) else 0.0
    shutil.rmtree(f"{folder}/out", ignore_errors=True)
    costs.code = minutes(["rt", "check", "--jobs", "1"], folder)
    costs.edits = minutes(["rt", "must-fail", *anew(), name], top) if costs.tried else 0.0
    return costs


def alone(used, names):
    """What these crates cost, or all, each measured by itself, lowest first."""
    wanted = [name for name in lowest_first(used) if not names or name in names]
    needed = set().union(*(below(used, name) for name in wanted)) - set(wanted)
    with tempfile.TemporaryDirectory() as room:
        top = copied(room, needed)
        for name in wanted:
            yield name, measured(top, name)


def anew():
    """The word that has the kit take nothing from an earlier run, where the kit has it: some keep what a run passed."""
    said = subprocess.run(["rt", "help"], capture_output=True, text=True, errors="replace")
    return ["--anew"] if "--anew" in said.stdout + said.stderr else []


def gate(used, names):
    """Runs the gate in a fresh clone, of these crates and those below them or of all: what each cost, what it took, and its status."""
    with tempfile.TemporaryDirectory() as room:
        subprocess.run(["git", "clone", "--quiet", TOP, f"{room}/top"], check=True)
        began = time.monotonic()
        with open(f"{room}/log", "w+", encoding="utf-8", errors="replace") as log:
            words = ["rt", "ci", *anew(), *names]
            child = subprocess.Popen(words, cwd=f"{room}/top", stdout=log, stderr=log, stdin=subprocess.DEVNULL)
            spent = watched(child)
            log.seek(0)
            verdict = log.read().rstrip("\n").split("\n")[-1]
    took = (time.monotonic() - began) / 60
    wanted = set(names).union(*(below(used, name) for name in names)) or set(used)
    costs = {}
    for name in lowest_first(used):
        if name in wanted:
            code = spent[name, "code"] + spent[name, "runs"]
            costs[name] = Costs(lines_of_code(name), code, spent[name, "tests"], edits_of(name), spent[name, "edits"])
    return costs, sums(took, sum_of(costs), verdict), child.returncode


def sums(took, all, verdict):
    """A line that says how long a gate took, the minutes of processor time by kind, and its verdict."""
    spent = all.code + all.tests + all.edits
    kinds = f"{all.code:.1f} for code, {all.tests:.1f} for tests, {all.edits:.1f} for {all.tried} edits"
    return f"{took:.0f} minutes on {len(os.sched_getaffinity(0))} cores: {spent:.1f} minutes of processor time, {kinds}. {verdict}"


def slowest(used, name):
    """Proves a crate from nothing, and gives its functions that took longest, a line for each."""
    with tempfile.TemporaryDirectory() as room:
        folder = f"{copied(room, below(used, name))}/crates/{name}"
        subprocess.run(NOTHING, cwd=folder, capture_output=True)
        shutil.rmtree(f"{folder}/out", ignore_errors=True)
        took, status = took_by_module(folder, name)
    whole = f"{sum(took.values()):.0f} seconds of processor time in all, one job{'; the crate was not proved' if status else ''}"
    return [*lines_of(took, SHOWN), whole]
