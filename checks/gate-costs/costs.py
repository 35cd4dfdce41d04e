"""What crates cost, as a table of a Markdown file, and which of them are over their budget."""
import dataclasses
import re

# The processor minutes for 100 lines of code that code may take, and tests and edits together as much again.
MOST = 0.6
# Of a crate with fewer lines of code it is said what a check of it takes with nothing to prove.
FEW = 200
FIELDS = {"Lines of code": "lines", "Code": "code", "Tests": "tests", "Edits tried": "tried", "Edits": "edits", "Reading": "reading"}
COLUMNS = ["Crate", *list(FIELDS)[:-1], "Code for each 100 lines", "Tests and edits for each 100 lines", "Reading"]
ALL = "all"
SUMS = re.compile(r"[\d,]+ minutes? on \d+ cores?: ")


@dataclasses.dataclass
class Costs:
    """Lines of code, and minutes of processor time; `reading` is what a check takes with nothing to prove, where that was measured."""

    lines: int = 0
    code: float = 0.0
    tests: float = 0.0
    tried: int = 0
    edits: float = 0.0
    reading: float = 0.0

    def for_each_100(self, minutes):
        return 100 * minutes / self.lines if self.lines else 0.0

    def cells(self):
        """The cells of a row, after the name."""
        shares = (self.for_each_100(self.code), self.for_each_100(self.tests + self.edits))
        return [
            str(self.lines),
            tenths(self.code),
            tenths(self.tests),
            str(self.tried or ""),
            tenths(self.edits),
            *[f"{it:.2f}" if it else "" for it in shares],
            tenths(self.reading),
        ]


def tenths(minutes):
    return f"{minutes:.1f}" if minutes else ""


def head(has_reading):
    return f"{row(COLUMNS, has_reading)}\n|{'---|' * (len(COLUMNS) - (not has_reading))}"


def row(cells, has_reading):
    """A row of a table, whose last column may be left out."""
    return f"| {' | '.join(cells if has_reading else cells[:-1])} |"


def sum_of(costs):
    """The sum of the costs of several crates. What each of them reads is the same over and over, and has no sum."""
    sums = [sum(column) for column in zip(*(dataclasses.astuple(it)[:-1] for it in costs.values()))]
    return Costs(*sums)


def table(costs):
    """The table of what a run of the gate took, which does not know what was reading."""
    every = {**costs, ALL: sum_of(costs)}
    return "\n".join([head(False), *(row([name, *it.cells()], False) for name, it in every.items())])


def cells_of(line):
    return [it.strip() for it in line.strip().strip("|").split("|")]


def begins(lines):
    """The number of the line that is the head of a table of costs; None where there is none."""
    for number, line in enumerate(lines):
        if line.startswith("| Crate |") and {"Lines of code", "Code"} <= set(cells_of(line)):
            return number
    return None


def ends(lines, number):
    """The number of the line after a table, and after the line of sums that belongs to it."""
    while number < len(lines) and lines[number].startswith("|"):
        number += 1
    last = number + 1 if lines[number : number + 1] == [""] else number
    return last + 1 if last < len(lines) and SUMS.match(lines[last]) else number


def read_table(path):
    """The costs of crates that the table of a Markdown file has."""
    with open(path, encoding="utf-8") as file:
        lines = file.read().split("\n")
    first = begins(lines)
    if first is None:
        raise ValueError(f"{path} has no table of costs")
    columns, costs = cells_of(lines[first]), {}
    for line in lines[first + 2 : ends(lines, first)]:
        values = dict(zip(columns, cells_of(line)))
        if line.startswith("|") and values["Crate"] != ALL:
            costs[values["Crate"]] = Costs(**{FIELDS[name]: number(value) for name, value in values.items() if name in FIELDS})
    return costs


def number(text):
    return float(text) if "." in text else int(text or 0)


def write_table(path, text):
    """Puts a table in the place of the one that a file has, or at its end."""
    try:
        with open(path, encoding="utf-8") as file:
            lines = file.read().split("\n")
    except FileNotFoundError:
        lines = []
    first = begins(lines)
    if first is None:
        before, after = [*"\n".join(lines).rstrip().split("\n"), ""] if any(lines) else [], [""]
    else:
        before, after = lines[:first], lines[ends(lines, first) :]
    with open(path, "w", encoding="utf-8") as file:
        file.write("\n".join([*before, *text.split("\n"), *after]))


def over_budget(costs):
    """For each crate that is over its budget, what is."""
    for name, it in costs.items():
        most = MOST * it.lines / 100
        over = [("code", it.code), ("tests and edits", it.tests + it.edits)]
        said = [f"{what} {took:.2f} of {most:.2f} minutes" for what, took in over if took > most]
        if said:
            reading = [f"{it.reading:.1f} with nothing to prove"] if it.reading and it.lines < FEW else []
            yield f"{name}: {'; '.join([*said, *reading])}"
