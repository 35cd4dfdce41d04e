"""Runs rt over the crates, side by side."""
from __future__ import annotations

import os
import queue
import shutil
import subprocess
import sys
import threading
import time
from typing import Dict, List, NamedTuple, Optional, Tuple

from building.copies import Copies
from building.faults import FULL, Fault
from building.kit import Kit
from building.machine import LEAST_DISK, PORTABLE, free_disk
from building.progress import SO_FAR, Line, Log
from building.schedule import Schedule
from building.sources import PROGRAM

# Seconds a line of code, as measured on a quiet machine, until this one has shown its own pace.
PACE = 0.25
# A crate that took less than this was there already, and says nothing about the pace.
QUICK = 10.0
KILLED = (-9, 137)
RT_ONCE = os.path.join(os.path.dirname(os.path.realpath(__file__)), "rt_once.py")


class Job:
    """An rt at work on a crate in a copy."""

    def __init__(self, name: str, jobs: int, folder: str, process: "subprocess.Popen[str]") -> None:
        self.name, self.jobs, self.folder, self.process = name, jobs, folder, process
        self.begun, self.proved = time.monotonic(), 0

    @property
    def spent(self) -> float:
        """Its seconds so far."""
        return time.monotonic() - self.begun


class Event(NamedTuple):
    """A line of a job, or its end."""

    job: Job
    line: Optional[str]


def ends_with_us() -> List[str]:
    """Words before a command that have it end where this process is killed."""
    return ["setpriv", "--pdeathsig", "TERM"] if shutil.which("setpriv") else []


def yields() -> List[str]:
    """Words before a command that have it take what others leave of the processors."""
    return ["nice", "-n", "10"] if shutil.which("nice") else []


def words_of(kit: Kit, name: str, jobs: int, processor: str) -> List[str]:
    """The command that proves a crate, and builds the program."""
    # (nobody edits the copies, so a crate's sum is made once)
    rt = [sys.executable, RT_ONCE, kit.rt]
    if name != PROGRAM:
        return [*rt, "lib", "--jobs", str(jobs)]
    # (the kit compiles for x86-64-v2 where nothing is said)
    flags = [] if processor == PORTABLE else [f"--cpu={processor}"]
    return [*rt, "run", "--jobs", str(jobs), *flags, "--", "--version"]


def environment() -> Dict[str, str]:
    """The environment, without what would have rt build otherwise than usual."""
    return {name: value for name, value in os.environ.items() if not name.startswith("RT_")}


def started(words: List[str], folder: str) -> "subprocess.Popen[str]":
    """A command at work in a folder, whose lines can be read."""
    how = {"stdin": subprocess.DEVNULL, "stdout": subprocess.PIPE, "stderr": subprocess.STDOUT}
    return subprocess.Popen(words, cwd=folder, env=environment(), text=True, errors="replace", **how)


class Proving:
    """A run over all crates."""

    def __init__(self, kit: Kit, copies: Copies, schedule: Schedule, line: Line, log: Log) -> None:
        self.kit, self.copies, self.schedule, self.line, self.log = kit, copies, schedule, line, log
        self.done: List[str] = []
        self.running: Dict[str, Job] = {}
        self.events: "queue.Queue[Event]" = queue.Queue()
        self.paced: List[Tuple[float, float]] = []

    def run(self, processor: str) -> str:
        """Proves all, and gives the copy in which the program is; a fault where a crate is not proved."""
        folder = ""
        try:
            while len(self.done) < len(self.schedule.uses):
                self._begin(processor)
                folder = self._take_event() or folder
                if self.line.is_due():
                    self._say()
        finally:
            self._stop()
            self.line.end()
        return folder

    def _begin(self, processor: str) -> None:
        jobs = {name: job.jobs for name, job in self.running.items()}
        begun = self.schedule.next(self.done, jobs)
        at_work = {*jobs, *(name for name, _ in begun)}
        for name, given in begun:
            folder = self.copies.begin(name)
            first = [] if self.schedule.leads(name, at_work) else yields()
            words = [*first, *ends_with_us(), *words_of(self.kit, name, given, processor)]
            self.running[name] = job = Job(name, given, folder, started(words, f"{folder}/crates/{name}"))
            self.log.write(name, f"begins, with {given} job{'s' * (given > 1)}, in {folder}")
            threading.Thread(target=self._read, args=(job,), daemon=True).start()

    def _read(self, job: Job) -> None:
        for line in job.process.stdout or ():
            self.events.put(Event(job, line))
        self.events.put(Event(job, None))

    def _take_event(self) -> Optional[str]:
        """Takes what a job said next, and gives the copy of one that is done."""
        try:
            job, line = self.events.get(timeout=1)
        except queue.Empty:
            return None
        if line is not None:
            self.log.write(job.name, line)
            so_far = SO_FAR.match(line)
            job.proved = int(so_far[1]) if so_far else job.proved
            return None
        status = job.process.wait()
        if status:
            raise Fault(self._failure(job.name, status))
        self._end(job)
        return job.folder

    def _end(self, job: Job) -> None:
        self.log.write(job.name, f"is done, after {job.spent:.0f} seconds")
        del self.running[job.name]
        self.copies.end(job.name, job.folder)
        self.done.append(job.name)
        if job.spent > QUICK:
            self.paced.append((job.spent, self.schedule.cost[job.name]))
            self._say()

    def _failure(self, name: str, status: int) -> str:
        self.log.write(name, f"ended with status {status}")
        if free_disk(self.copies.folders[0]) < LEAST_DISK:
            return FULL
        if status in KILLED:
            fewer = max(len(self.copies.folders) // 2, 1)
            return f"the proof of {name} was killed, most likely because memory ran out: run ./build --jobs {fewer}"
        if status < 0:
            return f"signal {-status} ended the proof of {name}: run this again to go on from here"
        said = "".join(self.log.last_of(name))
        return f"{name} was not proved and built; its last lines in the log {self.log.path} are:\n{said}".rstrip()

    def _say(self) -> None:
        spent = {name: job.spent for name, job in self.running.items()}
        proved = {name: job.proved for name, job in self.running.items()}
        seconds, cost = (sum(column) for column in zip(*self.paced)) if self.paced else (PACE, 1.0)
        left = self.schedule.left(self.done, spent, seconds / cost)
        if self.running:
            self.line.say(self.line.text(self.done, spent, proved, left))

    def _stop(self) -> None:
        for job in self.running.values():
            job.process.terminate()
        for job in self.running.values():
            job.process.wait()
