"""The documents: links, paths, crates, commands and examples are those of the repository, and README stays short."""
from __future__ import annotations

import functools
import glob
import os
import re
import shlex
import subprocess
import unittest
from typing import Iterator, List, NamedTuple, Set, Tuple

from tests.running import TOP

MOST_LINES_OF_README = 100

FENCE = re.compile(r"^ *```(\w*)")
SPAN = re.compile(r"`([^`]+)`")
LINK = re.compile(r"!?\[[^\]]*\]\(([^()\s]+)\)")
CRATE = re.compile(r"(?<![\w/.-])(?:lost|rows|test)_[a-z_]*[a-z]\b(?!\.\w)")
PATH = re.compile(r"(?:\./)?[\w.*{}<>-]+(?:/[\w.*{}<>-]+)*/?")
PLACEHOLDER = re.compile(r"[*<{]|\b(?:NAME|CRATE|FILE|FOLDER|PATH|N)\b")
ENDS_COMMAND = {";", "|", "||", "&", "&&", "(", ")"}
BEFORE_COMMAND = {"do", "then", "else", "if", "while", "time", "sudo", "env", "!"}
# Pages of the kit.
OF_KIT = ("GUIDELINES.md", "CONTRACT_STYLE.md")
# The programs as ./install puts them.
INSTALLED = {"lostd": "./lostd", "lost-client": "tools/lost-client"}


class Line(NamedTuple):
    """A line of a page: where it stands, the kind of block that it is in, with None for none, and its text."""

    page: str
    number: int
    block: object
    text: str

    def at(self, fault: str) -> str:
        """A fault with its place."""
        return f"{self.page}:{self.number}: {fault}"


def pages() -> List[str]:
    """The pages."""
    return ["README.md", "CONTRIBUTING.md", "CHANGELOG.md", *sorted(os.path.relpath(path, TOP) for path in glob.glob(f"{TOP}/docs/*.md"))]


def read(path: str) -> str:
    """The text of a file of the repository."""
    with open(f"{TOP}/{path}", encoding="utf-8") as file:
        return file.read()


@functools.lru_cache(maxsize=None)
def lines_of(page: str) -> Tuple[Line, ...]:
    """The lines of a page, without those that begin and end a block."""
    block, found = None, []
    for number, text in enumerate(read(page).splitlines(), 1):
        fence = FENCE.match(text)
        if fence:
            block = None if block is not None else fence.group(1)
        else:
            found.append(Line(page, number, block, text))
    return tuple(found)


def prose() -> Iterator[Line]:
    """The lines of all pages that are in no block."""
    for page in pages():
        yield from (line for line in lines_of(page) if line.block is None)


# ---- links


def slug(heading: str) -> str:
    """The anchor of a heading, as GitHub makes it."""
    text = LINK.sub(lambda link: re.sub(r"^!?\[|\]\(.*$", "", link.group(0)), heading).replace("`", "")
    return re.sub(r"[^\w\- ]", "", text.strip().lower()).replace(" ", "-")


@functools.lru_cache(maxsize=None)
def anchors(page: str) -> Set[str]:
    """The anchors of a page."""
    found: Set[str] = set()
    for line in lines_of(page):
        heading = re.match(r"#+ +(.*)", line.text) if line.block is None else None
        if heading:
            name, number = slug(heading.group(1)), 0
            while (f"{name}-{number}" if number else name) in found:
                number += 1
            found.add(f"{name}-{number}" if number else name)
    return found


def link_fault(page: str, target: str) -> str:
    """What is wrong with a link of a page; empty where it is right."""
    path, _, anchor = target.partition("#")
    to = os.path.normpath(os.path.join(os.path.dirname(page), path)) if path else page
    if not os.path.exists(f"{TOP}/{to}"):
        return f"there is no {to}"
    return f"{to} has no heading #{anchor}" if anchor and anchor not in anchors(to) else ""


# ---- paths and crates


def path_fault(span: str) -> str:
    """What is wrong with what stands in backquotes, if its first word is a path of the repository; empty where all is right."""
    word = span.split()[0] if span.strip() else ""
    path = word[2:] if word.startswith("./") else word
    if not PATH.fullmatch(word):
        return ""
    if re.fullmatch(r"[A-Z_]+\.md", path) and path not in OF_KIT:
        return "" if any(os.path.exists(f"{TOP}/{folder}{path}") for folder in ("", "docs/")) else f"there is no page {path}"
    parts = path.rstrip("/").split("/")
    is_of_repository = word.startswith("./") or ("/" in path and os.path.exists(f"{TOP}/{parts[0]}"))
    if not is_of_repository or "out" in parts or parts[0] == ".git":
        return ""
    fixed = next((number for number, part in enumerate(parts) if PLACEHOLDER.search(part)), len(parts))
    known = "/".join(parts[:fixed])
    return "" if os.path.exists(f"{TOP}/{known}") else f"there is no {known}"


def crates() -> List[str]:
    """The crates, lowest first."""
    return [line.partition(":")[0] for line in read("crates.txt").splitlines() if line and not line.startswith("#")]


def metrics() -> Set[str]:
    """What the gateway counts, which has names as crates have; a counter is shown as a total."""
    names = re.findall(r'"(lost_\w+)"', read("tools/gateway/metrics.py"))
    return {*names, *(f"{name}_total" for name in names)}


# ---- commands


def scripts(page: str) -> Iterator[Tuple[Line, str]]:
    """Each command line of the blocks of a page that a shell runs, with continued lines in one, and without what is fed to it."""
    before, end = "", ""
    for line in lines_of(page):
        if line.block != "sh":
            before, end = "", ""
        elif end:
            end = "" if line.text == end else end
        elif line.text.endswith("\\"):
            before += line.text[:-1] + " "
        else:
            feeds = re.search(r"<< *'?(\w+)'?", line.text)
            end = feeds.group(1) if feeds else ""
            yield line, before + (line.text[: feeds.start()] if feeds else line.text)
            before = ""


def commands(script: str) -> Iterator[List[str]]:
    """The words of each simple command of a line, without redirections."""
    tokens = shlex.shlex(script, posix=True, punctuation_chars=True)
    tokens.whitespace_split = True
    words, is_target = [], False  # type: List[str], bool
    for token in tokens:
        if token in ENDS_COMMAND:
            yield words
            words = []
        elif set(token) <= set("<>&"):
            is_target = True
        elif is_target:
            is_target = False
        elif words or not (token in BEFORE_COMMAND or re.fullmatch(r"\w+=.*", token)):
            words.append(token)
    yield words


@functools.lru_cache(maxsize=None)
def help_of(command: str, *words: str) -> str:
    """What a tool says of its options. A check that does not read `--help` says it in its own text."""
    if command.startswith("checks/") and "argparse" not in read(command):
        return read(command)
    ran = subprocess.run([f"{TOP}/{command}", *words, "--help"], capture_output=True, text=True, timeout=20, cwd=TOP)
    return ran.stdout


def has_option(command: str, option: str, words: List[str]) -> bool:
    """Whether a command has an option, by itself or by the first of its words."""
    if command == "./lostd":
        return f'"{option[2:]}"' in read("crates/lost_command/src/arguments.rt") or option in ("--help", "--version")
    found = re.compile(re.escape(option) + r"(?![\w-])")
    return bool(found.search(help_of(command)) or (words and found.search(help_of(command, words[0]))))


def command_faults(words: List[str]) -> Iterator[str]:
    """What is wrong with a command of the repository."""
    if not words:
        return
    command = INSTALLED.get(words[0], words[0])
    top = command.split("/")[0]
    if "/" not in command or not (top == "." or os.path.exists(f"{TOP}/{top}")):
        return
    if not os.path.isfile(f"{TOP}/{command}") or not os.access(f"{TOP}/{command}", os.X_OK):
        yield f"{command} is no program"
    elif read(command).startswith("#!/usr/bin/env python3"):
        plain = [word for word in words[1:] if not word.startswith("-")]
        for option in (word.partition("=")[0] for word in words[1:] if word.startswith("--") and len(word) > 2):
            if option != "--help" and not has_option(command, option, plain[:1]):
                yield f"{command} has no {option}"


# ---- examples


def session_pairs() -> Set[Tuple[str, str]]:
    """Each line of each session, with its reply."""
    found: Set[Tuple[str, str]] = set()
    for path in glob.glob(f"{TOP}/examples/*.jsonl"):
        with open(path, "rb") as lines, open(path.replace(".jsonl", ".expected"), "rb") as replies:
            for line, reply in zip(lines.read().split(b"\n"), replies.read().split(b"\n")):
                found.add((line.decode(errors="replace"), reply.decode()))
    return found


class Documents(unittest.TestCase):
    """Each page."""

    maxDiff = None

    def none(self, faults: List[str]) -> None:
        """Fails with all faults, if there are any."""
        if faults:
            self.fail("\n" + "\n".join(faults))

    def test_each_link_leads_somewhere(self) -> None:
        found = [(line, target) for line in prose() for target in LINK.findall(SPAN.sub("``", line.text))]
        inside = [(line, target) for line, target in found if not re.match(r"[a-z]+:", target)]
        self.assertGreater(len(inside), 20)
        faults = [(line, link_fault(line.page, target)) for line, target in inside]
        self.none([line.at(fault) for line, fault in faults if fault])

    def test_each_path_is_there(self) -> None:
        faults = [(line, path_fault(span)) for line in prose() for span in SPAN.findall(line.text)]
        self.none([line.at(fault) for line, fault in faults if fault])

    def test_each_crate_is_there_and_described(self) -> None:
        house = read("docs/ARCHITECTURE.md")
        missing = [f"docs/ARCHITECTURE.md: {crate} is not named" for crate in crates() if not re.search(rf"\b{crate}\b", house)]
        named = [(line, name) for line in prose() for name in CRATE.findall(line.text)]
        known = {*crates(), *metrics()}
        unknown = [line.at(f"{name} is not in crates.txt") for line, name in named if name not in known]
        self.none(missing + unknown)

    def test_each_command_is_there_and_has_its_options(self) -> None:
        seen = 0
        faults = []
        for page in pages():
            for line, script in scripts(page):
                for words in commands(script):
                    seen += 1
                    faults += [line.at(fault) for fault in command_faults(words)]
        self.none(faults)
        self.assertGreater(seen, 10)

    def test_the_examples_of_the_protocol_are_those_of_the_sessions(self) -> None:
        known, faults, seen = session_pairs(), [], 0
        texts = [line for line in lines_of("docs/PROTOCOL.md") if line.block == "json"]
        for line, reply in zip(texts[::2], texts[1::2]):
            seen += 1
            if (line.text, reply.text) not in known:
                faults.append(line.at("no session has this line with this reply"))
        self.none(faults)
        self.assertGreater(seen, 40)

    def test_the_page_of_examples_is_made_of_the_sessions(self) -> None:
        ran = subprocess.run([f"{TOP}/docs/examples/write", "--check"], capture_output=True, text=True, timeout=60)
        self.assertEqual((ran.returncode, ran.stderr), (0, ""))

    def test_the_length_of_readme(self) -> None:
        self.assertLessEqual(len(read("README.md").splitlines()), MOST_LINES_OF_README)


class Reading(unittest.TestCase):
    """How the tests above read a page."""

    def test_slugs(self) -> None:
        self.assertEqual(slug("The desk's lines"), "the-desks-lines")
        self.assertEqual(slug("`./lostd` and [a link](x.md), 2"), "lostd-and-a-link-2")

    def test_paths(self) -> None:
        for right in ("crates.txt", "docs/examples/write --check", "examples/NAME.jsonl", "crates/*/out", "crates/lostd/out/lostd",
                      "checks/wrong-bodies/CRATE/", "src/lib.rt", "/usr/local", "PROTOCOL.md", "./lostd", "a/b", "1 to 8"):
            self.assertEqual(path_fault(right), "", right)
        for wrong in ("docs/NOTHING.md", "./nothing", "crates/lost_nothing", "tools/nothing/NAME", "NOTHING.md"):
            self.assertNotEqual(path_fault(wrong), "", wrong)

    def test_commands(self) -> None:
        script = "A=1 tools/test --lostd 'a b' < x | nc -N h 1 && (for s in 1; do lost-client desk - > y; done) &  # a word"
        read_words = [words for words in commands(script) if words]
        self.assertEqual(read_words[:3], [["tools/test", "--lostd", "a b"], ["nc", "-N", "h", "1"], ["for", "s", "in", "1"]])
        self.assertEqual(read_words[3:], [["lost-client", "desk", "-"], ["done"]])
        self.assertEqual(list(command_faults(["tools/test", "--lostd", "x"])), [])
        self.assertEqual(list(command_faults(["lost-client", "desk", "--sync=x"])), [])
        self.assertEqual(list(command_faults(["lostd", "serve", "--keep-going"])), [])
        self.assertEqual(list(command_faults(["./lostd", "serve", "--nothing"])), ["./lostd has no --nothing"])
        self.assertEqual(list(command_faults(["tools/test", "--nothing"])), ["tools/test has no --nothing"])
        self.assertEqual(list(command_faults(["tools/nothing"])), ["tools/nothing is no program"])
