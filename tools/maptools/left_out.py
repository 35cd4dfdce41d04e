"""What is left out, and why: a fault of the input by its place, and a mistake of the command line once."""
from __future__ import annotations

import difflib
import sys
from typing import Any, Dict, Iterable, List, Set

from maptools.alike import Alike, Complaints
from maptools.meridian import Unfit
from maptools.templates import NoValue

# After so many rows a terminal is told again how many there are.
STEP = 1000
CLEAR = "\r\x1b[K"
OWN_NAMES = ("@number", "@district", "@source-id", "@regions")


class Mistake(Unfit):
    """A mistake of the command line that shows at a feature, and would show at many."""

    def __init__(self, option: str, cause: str) -> None:
        super().__init__(f"{option}: {cause}")
        self.option = option


def has_value(properties: Dict[str, Any], name: str) -> bool:
    """Whether a property has a value."""
    return properties.get(name) not in (None, "")


class LeftOut:
    """Counts what is left out, and says why on standard error.

    A property that no feature has a value of is a mistake of the command line. So what lacks it waits, until a feature has
    it, or the input has ended. Usual properties may be missing, where nothing needs them.
    """

    def __init__(self, program: str, noun: str, names: Iterable[str], usual: Iterable[str] = ()) -> None:
        self.program, self.noun, self.usual = program, noun, set(usual)
        self.unseen: Set[str] = set(names) - set(OWN_NAMES)
        self.waiting: Dict[str, Alike] = {}
        self.complaints = Complaints(self.say, "left out for like reasons")
        self.known: List[str] = []
        self.said: Set[str] = set()
        self.count, self.looked = 0, 0
        self.shows_progress, self.is_line_open = sys.stderr.isatty() and not sys.stdout.isatty(), False

    def say(self, text: str) -> None:
        """One line on standard error."""
        print(f"{CLEAR if self.is_line_open else ''}{self.program}: {text}", file=sys.stderr)
        self.is_line_open = False

    def show_progress(self) -> None:
        """Says now and then how far it is, in a line that the next one overwrites."""
        if self.shows_progress and self.looked % STEP == 0:
            print(f"{CLEAR}{self.program}: {self.looked:,} {self.noun}s", end="", file=sys.stderr, flush=True)
            self.is_line_open = True

    def look(self, properties: Dict[str, Any]) -> None:
        """Notes which properties a feature has."""
        self.looked += 1
        self.show_progress()
        self.known = self.known or [name for name in properties if not name.startswith("@")]
        for name in [name for name in self.unseen if has_value(properties, name)]:
            self.unseen.discard(name)
            if name in self.waiting:
                alike = self.complaints.alike[name] = self.waiting.pop(name)
                for text in alike.first:
                    self.say(text)

    def add(self, place: str, unfit: Unfit) -> None:
        """Counts what is left out at a place, and says why."""
        self.count += 1
        if isinstance(unfit, Mistake):
            self.say_once(unfit.option, unfit.cause)
        elif isinstance(unfit, NoValue) and unfit.name in self.unseen:
            self.waiting.setdefault(unfit.name, Alike()).add(place, str(unfit))
        else:
            self.complaints.add(place, str(unfit), unfit.name if isinstance(unfit, NoValue) else "")

    def say_once(self, option: str, text: str) -> None:
        """Says a mistake of an option, unless it was said."""
        if option not in self.said:
            self.said.add(option)
            self.say(text)

    def hint(self, name: str) -> str:
        """What may be meant by the name of a property that nothing has."""
        near = difflib.get_close_matches(name, self.known, 1)
        if name in self.known or not self.known:
            return ""
        return f": did you mean {near[0]!r}?" if near else f": there are {', '.join(map(repr, self.known[:10]))}"

    def finish(self) -> None:
        """Says how much more was left out than was named, and which properties nothing had."""
        self.complaints.finish()
        for name in sorted(self.unseen) if self.looked else []:
            text = f"no {self.noun} has a value of the property {name!r}{self.hint(name)}"
            if name in self.waiting:
                self.say_once(name, text)
            elif name not in self.usual:
                self.say(f"note: {text}")

    def status(self) -> int:
        """The exit status: 2 for a mistake of the command line, 3 where something else was left out."""
        return 2 if self.said else 3 if self.count else 0
