"""Spoils copies of a log and of a journal, so that an audit has something to find."""
import json
import random
import re

from logs import LEFT_OUT

# One line of so many is spoilt, and of a short log about so many.
RARELY, FEWEST = 1_000, 40
REPLY = re.compile(rb',"reply":"(.*)"\}\n\Z', re.DOTALL)
DIGEST = re.compile(rb',"digest":"([0-9a-f]{16})"\}\n\Z')
ESCAPE = re.compile(rb'\\(?:u....|.)')
EDITION = re.compile(rb'\A\{"commit":\{"edition":')
LETTER = re.compile(rb"[a-z]")


def other(byte):
    """Another letter or digit, which a digest may have, too."""
    return b"1" if byte == b"0" else b"0"


class Spoiling:
    """Spoils one of a thousand replies in the lines of a log, of which there are so many, and keeps the numbers of their lines."""

    def __init__(self, count, seed):
        self.dice, self.rarely = random.Random(seed), min(RARELY, max(1, count // FEWEST))
        self.numbers, self.wholes, self.digests = [], 0, 0

    def lines(self, lines):
        """The lines, some of them spoilt."""
        for number, line in enumerate(lines, 1):
            if self.dice.randrange(self.rarely) == 0 and not line.startswith(LEFT_OUT):
                self.numbers.append(number)
                line = self.spoilt(line)
            yield line

    def spoilt(self, line):
        """A line with another reply, or with the digest of another one."""
        digest = DIGEST.search(line)
        if digest:
            self.digests += 1
            return self.changed(line, range(*digest.span(1)))
        self.wholes += 1
        begin, end = REPLY.search(line).span(1)
        escaped = {place for found in ESCAPE.finditer(line, begin, end) for place in range(*found.span())}
        return self.changed(line, [place for place in range(begin, end) if place not in escaped and line[place : place + 1].isalnum()])

    def changed(self, line, places):
        """A line with another letter or digit at one of these places."""
        place = self.dice.choice(places)
        return line[:place] + other(line[place : place + 1]) + line[place + 1 :]


class Changed:
    """A copy of a journal in which one edit has another letter in its URI, and the number of its commit's line."""

    def __init__(self, journal, path, seed):
        with open(journal, "rb") as file:
            lines = file.readlines()
        dice = random.Random(seed)
        commits = [number for number, line in enumerate(lines) if EDITION.match(line)]
        edits = [number for number, line in enumerate(lines[: commits[-1]]) if number not in set(commits) and uri_in(line)]
        self.number = dice.choice(edits)
        self.commit = next(number for number in commits if number > self.number) + 1
        place = dice.choice(uri_in(lines[self.number]))
        line = lines[self.number]
        lines[self.number] = line[:place] + other(line[place : place + 1]) + line[place + 1 :]
        with open(path, "wb") as file:
            file.writelines(lines)


def uri_in(line):
    """The places of the letters of a plain URI's part behind its scheme; none where an edit has none."""
    try:
        uri = next(iter(json.loads(line).values()))["uri"][0].encode()
    except (ValueError, KeyError, IndexError, TypeError, AttributeError):
        return []
    begin = line.find(uri)
    behind = begin + uri.find(b":") + 1
    return [found.start() for found in LETTER.finditer(line, behind, begin + len(uri))] if begin >= 0 and b":" in uri else []
