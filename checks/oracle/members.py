"""The members of the objects of a line."""
from texts import decimal, is_text


def member(described, name):
    """The value of a member; None where it is absent, and null counts as absent."""
    return described.get(name)


def only_member(line):
    """The name and the value of an object with exactly one member; None for all else."""
    return next(iter(line.items())) if isinstance(line, dict) and len(line) == 1 else None


def is_whole(value):
    """A number is whole where it was read as one; true and false are no numbers."""
    return isinstance(value, int) and not isinstance(value, bool)


def are_two_whole(value):
    """A pair is a list of two whole numbers, in or out of range."""
    return isinstance(value, list) and len(value) == 2 and all(map(is_whole, value))


def position_of(value):
    """A position is such a pair, or a text of two numbers in degrees; None where it has another shape."""
    if is_text(value):
        return decimal(value)
    return tuple(value) if are_two_whole(value) else None


def are_pairs(value):
    """Pairs are an object whose values are texts."""
    return isinstance(value, dict) and all(isinstance(text, str) for text in value.values())


def are_texts(value):
    """A list of texts."""
    return isinstance(value, list) and all(isinstance(text, str) for text in value)
