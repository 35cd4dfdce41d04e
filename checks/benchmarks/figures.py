"""How figures are found in what a program prints, and how they are written."""
import re


class Unexpected(Exception):
    """A program printed something else than it is known for."""


def rows(pattern, text, count):
    """What the groups of a pattern hold in each line that it fits: so many lines, in order."""
    found = [match.groups() for match in re.finditer(f"^{pattern}$", text, re.MULTILINE)]
    if len(found) != count:
        raise Unexpected(f"of its lines {len(found)} are like {pattern!r}, and not {count}")
    return found


def micro(nanoseconds):
    """Nanoseconds in microseconds."""
    value = int(nanoseconds) / 1e3
    return f"{value:.1f}" if value < 10 else f"{value:,.0f}"


def milli(nanoseconds):
    """Nanoseconds in milliseconds."""
    value = int(nanoseconds) / 1e6
    return f"{value:.2f}" if value < 1 else f"{value:,.1f}"


def seconds(microseconds):
    """Microseconds in seconds."""
    value = int(microseconds) / 1e6
    return f"{value:.2f}" if value < 1 else f"{value:.1f}"


def count(number):
    """A number that was counted, to three digits."""
    number = int(number)
    step = 10 ** max(len(str(number)) - 3, 0)
    return f"{round(number / step) * step:,}"


def megabytes(size):
    """Bytes in megabytes."""
    return f"{int(size) / 1e6:,.0f}"


def table(head, lines):
    """A table of Markdown."""
    written = [f"| {' | '.join(cells)} |" for cells in (head, *lines)]
    return "\n".join([written[0], "|" + "---|" * len(head), *written[1:]])
