"""docs/BENCHMARKS.md as it is read and written, and the figures that README shows too."""
import re
from typing import NamedTuple

HEAD = """\
# Benchmarks

This page is for anyone who plans a server. `checks/benchmarks/run` writes it from what the named commands print. No promise speaks of speed.

{run}

"Instructions" is how many times as many the larger map takes, by valgrind.
"""
RUN = re.compile(r"^Measured on (\S+) at commit (.+?), on (.+)\.$", re.MULTILINE)
SECTION = "\n## "


class Missing(Exception):
    """A place in a page that is not there."""


class Run(NamedTuple):
    """When something was measured, of which sources, and on which machine."""

    day: str
    commit: str
    machine: str

    def text(self):
        """As the page says it."""
        return f"Measured on {self.day} at commit {self.commit}, on {self.machine}."


def read_page(text):
    """The run of a page, if it has one, and its sections by their titles."""
    found = RUN.search(text)
    bodies = {}
    for part in text.split(SECTION)[1:]:
        title, _, body = part.partition("\n")
        bodies[title] = body.strip()
    return (Run(*found.groups()) if found else None), bodies


def kept(run, bodies):
    """The sections of an earlier run, each with its day and its commit behind its command."""
    return {title: re.sub(r"\A(`[^`]*`)\.$", rf"\1, {run.day}, commit {run.commit}.", body, flags=re.MULTILINE) for title, body in bodies.items()}


def write_page(run, titles, bodies):
    """The text of the page; a section without a body is left out."""
    parts = [f"{SECTION}{title}\n\n{bodies[title]}\n" for title in titles if bodies.get(title)]
    return HEAD.format(run=run.text()) + "".join(parts)


def with_figures(readme, shown, machine):
    """README with these figures in the rows of their names, and the machine in its sentence; Missing where it lacks one."""
    for name, figure in shown.items():
        readme = put(readme, rf"^\| {re.escape(name)} \|.*$", f"| {name} | {figure} |", name)
    return put(readme, r"^Measured on [^;]*;", f"Measured on {machine};", "Measured on") if shown else readme


def put(text, pattern, line, name):
    """A text with a line in the place of the one that a pattern fits."""
    text, count = re.subn(pattern, line, text, flags=re.MULTILINE)
    if count != 1:
        raise Missing(f"README.md has {count} lines of {name!r}, and must have one")
    return text
