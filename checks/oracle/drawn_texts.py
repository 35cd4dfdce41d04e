"""Draws positions as decimal text: right ones in any spelling, and odd ones."""

UNITS_OF_A_DEGREE = 10_000_000
# Texts that are no positions.
NO_POSITIONS = [
    "", " ", "0", "0 ", " 0", ".5 0", "0 .5", "1. 0", "0 1.", "0.50000000 0", "0 0.00000000", " 0 0", "0 0 ", "0 0 0",
    "+1 0", "0 +1", "0001 0", "0 0001", "1e1 0", "0 1E1", "0\t0", "0\n0", "0 \t0", "0,0", "0, 0", "0,5 0", "- 0", "0 -",
    "--1 0", "- 1 0", "1- 0", "-.5 0", "1.-5 0", "1.5.5 0", "1_0 0", "0x1 0", "\u0660 0", "0\u00a00", "\uff11 0", "0 0\n",
    "0 0\x00", "[0,0]", "NaN 0", "0 inf", "0 0 x", "0 0x", "1000 0",
]
# Texts that are positions, at the bounds of the range and of the spelling, or out of range.
ODD_POSITIONS = [
    "90 180", "-90.0000000 -180", "90.0000000   180.0000000", "-0 -0", "000 -000.0", "-0.0000001 0", "0 -0.0000001",
    "89.9999999 179.9999999", "90.0000001 0", "-90.0000001 0", "0 180.0000001", "0 -180.0000001", "999.9999999 0",
    "0 -999.9999999", "0" + " " * 300 + "0", "007 -08.50", "91 0", "0 181",
]


class PositionText(str):
    """The text of a position, which knows its pair."""

    def __new__(cls, text, pair):
        made = super().__new__(cls, text)
        made.pair = pair
        return made


def number_text(dice, number):
    """A number of degrees in any spelling: with zeros at either end, and with a minus sign at zero."""
    whole, decimals = divmod(abs(number), UNITS_OF_A_DEGREE)
    sign = "-" if number < 0 or number == 0 and dice.chance(0.2) else ""
    digits = f"{decimals:07}".rstrip("0")
    if dice.chance(0.3):
        digits += "0" * dice.randint(0, 7 - len(digits))
    width = dice.choice([1, 1, 1, 2, 3])
    return f"{sign}{whole:0{width}}" + (f".{digits}" if digits else "")


def position_text(dice, pair):
    """A pair as text in any spelling; the pair itself where a number is too large for a text."""
    if any(abs(number) >= 1000 * UNITS_OF_A_DEGREE for number in pair):
        return pair
    spaces = dice.choice([" "] * 8 + ["  ", "   "])
    return PositionText(spaces.join(number_text(dice, number) for number in pair), pair)


def respelled(dice, position):
    """A position in another spelling: as a pair, or as text."""
    pair = position.pair if isinstance(position, PositionText) else position
    return dice.choice([pair, position_text(dice, pair)])


def broken_text(dice, text):
    """The text of a position with something too much, too little or in another way."""
    place = dice.randint(0, len(text))
    front, end = text[:place], text[place:]
    return dice.choice([
        " " + text, text + " ", text + dice.choice([" 0", "0" * 7, "x", "e0", ".", "\n"]), "+" + text, "0" * 3 + text,
        text.replace(" ", dice.choice(["\t", ",", ", ", "\u00a0", ""])), text.replace(" ", " +"), text.replace(".", ","),
        text.replace("0.", "."), front + end[1:], front + dice.choice([" ", "-", ".", "0", "9", "e", "\u0661"]) + end,
    ])  # fmt: skip


def odd_position(dice, pair):
    """An odd text, or one that is right and seldom drawn."""
    way, text = dice.by_weight({"none": 7, "bound": 2, "broken": 5}), position_text(dice, pair)
    if way == "broken" and isinstance(text, PositionText):
        return broken_text(dice, text)
    return dice.choice(ODD_POSITIONS if way == "bound" else NO_POSITIONS)
