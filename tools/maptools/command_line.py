"""The command line of a tool. A mistake is said in one line, as lostd says it: with the nearest option, and whose help to read."""
from __future__ import annotations

import argparse
import difflib
import sys
from typing import Any, List, NoReturn, Optional, Sequence, Tuple


class CommandLine(argparse.ArgumentParser):
    """The options of a command. Its help is laid out as it is written."""

    def __init__(self, **words: Any) -> None:
        words.setdefault("formatter_class", argparse.RawDescriptionHelpFormatter)
        super().__init__(**words)

    def error(self, message: str) -> NoReturn:
        """Says a mistake in one line, and ends with status 2."""
        self.exit(2, f"{self.prog}: {message}; see `{self.prog} --help`\n")

    def parse_known_args(self, args: Optional[Sequence[str]] = None, namespace: Any = None) -> Tuple[Any, List[str]]:
        """The options, and what is left for another parser. An unknown option is said before what it may stand for is missed."""
        given = list(sys.argv[1:] if args is None else args)
        unknown = next(filter(self.is_unknown, self.own(given)), None)
        if unknown is not None:
            self.error(self.unexpected(unknown))
        return super().parse_known_args(given, namespace)

    def parse_args(self, args: Optional[Sequence[str]] = None, namespace: Any = None) -> Any:  # type: ignore[override]
        """The options; a word too many is a mistake."""
        options, left = self.parse_known_args(args, namespace)
        if left:
            self.error(self.unexpected(left[0]))
        return options

    def own(self, given: List[str]) -> List[str]:
        """The words that are this command's: those of a subcommand are looked at by its own parser."""
        place = given.index("--") if "--" in given else len(given)
        if self._subparsers is not None:
            place = next((number for number, word in enumerate(given[:place]) if not word.startswith("-")), place)
        return given[:place]

    def is_unknown(self, word: str) -> bool:
        """Whether a word is a long option that the command does not have; the beginning of one stands for it."""
        name = word.partition("=")[0]
        return name.startswith("--") and len(name) > 2 and " " not in name and not any(known.startswith(name) for known in self._option_string_actions)

    def unexpected(self, word: str) -> str:
        """That a word is not expected, and which option may be meant."""
        name = word.partition("=")[0]
        near = difflib.get_close_matches(name, list(self._option_string_actions), 1)
        return f"unexpected argument {name!r} found" + (f" (did you mean {near[0]!r}?)" if near else "")
