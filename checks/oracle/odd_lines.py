"""Sessions whose lines are spelled in every odd way, each line once more in a spelling that only the reader of trees takes.

Members stand in any order, some of them twice; names and values have escapes; numbers have all spellings; unknown members
nest deeply or have many items; lines are cut, broken, and filled to the bounds of what is read by tokens. Some are the compact
lines that are read in one pass, or nearly so.
"""
from drawn_texts import PositionText, broken_text, position_text
from samples import JUNK, NO_JSON, ODD_JSON
from sessions import Session
from spelling import BLANKS, Spelled, broken, nested, spelled_character, with_member
from spoiling import spoil_line
from strict_json import write_json

EDITS, LINES = 8, 250
MOST_BYTES, MOST_TOKENS = 8_192, 254
NOT_WHOLE = b"0.5"
NAMES = ["x", "", "é", "POS", "pos ", "Service", "a\nb", "recursive", "\U0001f600"]


class OddSession(Session):
    """A session of a seed whose lines are odd. `first` is how many lines it begins with, which are as usual."""

    def __init__(self, seed):
        super().__init__(seed)
        usual, odd = self.lines[: EDITS + 1], self.lines[EDITS + 1 :]
        twice = [line for once in odd for line in (once, with_member(once, NOT_WHOLE))]
        self.lines = usual + twice
        self.given = b"\n".join(self.lines) + b"\n"

    def values(self):
        """A few edits and a commit, then mostly requests."""
        for _ in range(EDITS):
            yield self.edits.edit()
        yield {"commit": {}}
        for _ in range(LINES):
            yield self.edits.edit() if self.dice.chance(0.08) else self.requests.request()

    def line(self, value, with_blanks):
        """The bytes of a line in an odd spelling."""
        dice = self.dice
        if "findService" in value and dice.chance(0.3):
            return compact_line(dice, value["findService"])
        if dice.chance(0.1):
            value = spoil_line(self, value)
        line = oddly(dice, value, with_blanks).encode()
        if dice.chance(0.03):
            line = with_member(line, many_items(dice).encode())
        if dice.chance(0.03):
            line = line.ljust(MOST_BYTES + dice.choice([-1, 0, 1]))
        return broken(dice, line, NO_JSON + ODD_JSON) if dice.chance(0.06) else line


def compact_line(dice, request):
    """A findService at one place and no more, compact and in the order of names: many are as one reader wants them, the
    others have a byte or a piece of JSON too many, too few or another."""
    location = dice.choice(request["location"])
    wanted = {name: location[name] for name in location if name != "srsName" or dice.chance(0.1)}
    line = write_json({"findService": {"location": [wanted], "service": request["service"]}}).encode()
    return broken(dice, line, NO_JSON + ODD_JSON) if dice.chance(0.4) else line


def oddly(dice, value, with_blanks):
    """A value as JSON, in an odd spelling."""
    if isinstance(value, Spelled):
        return str(value)
    if isinstance(value, PositionText):
        return odd_text(dice, odd_degrees(dice, value))
    if isinstance(value, str):
        return odd_text(dice, value)
    if isinstance(value, list):
        return "[" + joined(dice, [oddly(dice, item, with_blanks) for item in value], with_blanks) + "]"
    if isinstance(value, dict):
        members = [
            odd_text(dice, name) + blank(dice, with_blanks) + ":" + blank(dice, with_blanks) + text
            for name, text in odd_members(dice, value, with_blanks)
        ]
        return "{" + joined(dice, members, with_blanks) + "}"
    if value is None or isinstance(value, bool):
        return {None: "null", True: "true", False: "false"}[value]
    return odd_number(dice, value)


def blank(dice, with_blanks):
    """White space, or none."""
    return dice.choice(BLANKS) if with_blanks else ""


def joined(dice, texts, with_blanks):
    """Texts with commas between them."""
    return blank(dice, with_blanks) + (blank(dice, with_blanks) + "," + blank(dice, with_blanks)).join(texts) + blank(dice, with_blanks)


def odd_members(dice, described, with_blanks):
    """The members in any order, here and there one twice or one that is unknown: names, and texts of values."""
    members = [(name, oddly(dice, described[name], with_blanks)) for name in dice.sample(list(described), len(described))]
    if members and dice.chance(0.06):
        name, text = dice.choice(members)
        other = text if dice.chance(0.3) else oddly(dice, dice.choice(JUNK), with_blanks)
        members.insert(dice.randint(0, len(members)), (name, other))
    if dice.chance(0.04):
        members.insert(dice.randint(0, len(members)), (dice.choice(NAMES), odd_value(dice)))
    return members


def odd_value(dice):
    """The text of a value of an unknown member."""
    way = dice.by_weight({"odd": 6, "junk": 6, "nested": 3, "no JSON": 1})
    if way == "odd":
        return dice.choice(ODD_JSON)
    if way == "junk":
        return oddly(dice, dice.choice(JUNK), True)
    return nested(dice) if way == "nested" else dice.choice(NO_JSON)


def odd_text(dice, text):
    """A text as JSON; many texts have characters by their digits."""
    is_digits_wanted = dice.chance(0.15)
    return '"' + "".join(spelled_character(dice, character, is_digits_wanted) for character in text) + '"'


def odd_degrees(dice, text):
    """A position, mostly as it is, here and there in another spelling or in one that makes it none."""
    way = dice.by_weight({"the same": 90, "another": 5, "broken": 5})
    if way == "another":
        return position_text(dice, text.pair)
    return broken_text(dice, text) if way == "broken" else text


def odd_number(dice, number):
    """A whole number, here and there in a spelling that makes it none, or that makes no JSON."""
    if not dice.chance(0.03):
        return str(number)
    return dice.choice([
        f"{number}.0", f"{number}e0", f"{number}E+0", f"{number}0e-1", "-0", "0", "-0.0", f"{number}.5", f"0{number}",
        f"+{number}", f"--{number}", f"{number}.", "9223372036854775807", "9223372036854775808", "-9223372036854775808",
        "-9223372036854775809", "18446744073709551615", "18446744073709551616", "1e400", "-1", "1" * 40,
    ])


def many_items(dice):
    """A list of about as many numbers as a line that is read by tokens may have tokens."""
    return "[" + ",".join(["1"] * (MOST_TOKENS - dice.randint(0, 40))) + "]"
