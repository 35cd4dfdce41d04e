"""The rules of texts: services, sources, ids, stamps, URIs, numbers and positions in degrees."""
import datetime
import re
import string

LOWER = str.maketrans(string.ascii_uppercase, string.ascii_lowercase)
LABEL_CHARACTERS = set(string.ascii_lowercase + string.digits + "-")
SERVICE_PREFIX = "urn:service:"
STAMP = re.compile(r"([0-9]{4})-([0-9]{2})-([0-9]{2})T([0-9]{2}):([0-9]{2}):([0-9]{2})(?:\.([0-9]{1,9}))?Z")
URI = re.compile(r"([A-Za-z][A-Za-z0-9+.-]*):[!-~]+")
NUMBER = re.compile(r"[0-9*#]{1,64}")
TWO_WORDS = re.compile(r"([^ ]+) +([^ ]+)")
DEGREES = re.compile(r"(-?)([0-9]{1,3})(?:\.([0-9]{1,7}))?")
UNITS_OF_A_DEGREE = 10_000_000
FIRST_DAY = datetime.date(1970, 1, 1)
NANOSECONDS = 1_000_000_000


def is_text(value):
    """Text is a JSON string."""
    return isinstance(value, str)


def size(text):
    """Lengths are those of the text in UTF-8."""
    return len(text.encode())


def lowered(text):
    """ASCII letters in lower case, and all else as it is."""
    return text.translate(LOWER)


def same_ignoring_case(one, other):
    """Two texts are the same but for the case of ASCII letters."""
    return lowered(one) == lowered(other)


def is_label(label):
    """A label is 1 to 63 lower-case letters, digits and hyphens, with no hyphen at either end."""
    return 1 <= len(label) <= 63 and set(label) <= LABEL_CHARACTERS and label[0] != "-" and label[-1] != "-"


def read_service(text):
    """The labels of a service, lowered: 1 to 8 behind the prefix, joined by dots; None where the text spells none."""
    prefix, rest = text[: len(SERVICE_PREFIX)], text[len(SERVICE_PREFIX) :]
    labels = lowered(rest).split(".")
    if not same_ignoring_case(prefix, SERVICE_PREFIX) or len(labels) > 8:
        return None
    return tuple(labels) if all(map(is_label, labels)) else None


def service_text(service):
    """The text of a service is the prefix and its labels, joined by dots."""
    return SERVICE_PREFIX + ".".join(service)


def is_source(text):
    """A source, and a server's name, has 1 to 253 bytes: labels in any case, joined by single dots."""
    return 1 <= size(text) <= 253 and all(map(is_label, lowered(text).split(".")))


def is_id(text):
    """A sourceId, and a key, has 1 to 128 bytes, none below 32 and none 127."""
    return 1 <= size(text) <= 128 and all(byte >= 32 and byte != 127 for byte in text.encode())


def moment_of(text):
    """The instant of a stamp, as its day number and its nanosecond of the day; None where the text is no stamp."""
    parts = STAMP.fullmatch(text)
    if not parts:
        return None
    year, month, day, hour, minute, second = (int(parts[number]) for number in range(1, 7))
    try:
        date = datetime.date(year, month, day)
    except ValueError:
        return None
    if hour > 23 or minute > 59 or second > 59:
        return None
    return (date - FIRST_DAY).days, ((hour * 60 + minute) * 60 + second) * NANOSECONDS + fraction(parts[7])


def fraction(digits):
    """The nanoseconds of a fraction of a second; digits that it leaves out are zeros."""
    return int((digits or "").ljust(9, "0"))


def scheme_of(text):
    """The scheme of a URI, lowered; None where the text is no URI, which has at most 2,048 bytes from 33 to 126."""
    parts = URI.fullmatch(text)
    return lowered(parts[1]) if parts and len(text) <= 2048 else None


def are_uris(texts):
    """A mapping has 1 to 16 URIs, no scheme twice, ignoring ASCII case."""
    schemes = list(map(scheme_of, texts))
    return 1 <= len(schemes) <= 16 and None not in schemes and len(set(schemes)) == len(schemes)


def is_number(text):
    """A service number has 1 to 64 characters, each a digit, a star or a hash."""
    return NUMBER.fullmatch(text) is not None


def two_words(text):
    """Two words with one or more spaces between them, and nothing else; None for any other text."""
    parts = TWO_WORDS.fullmatch(text)
    return parts and parts.groups()


def decimals_of(digits):
    """The 1e-7 degrees of the digits behind a dot; digits that it leaves out are zeros."""
    return int((digits or "").ljust(7, "0"))


def signed(sign, whole, decimals):
    """The 1e-7 degrees of a number: its sign is that of the decimals too."""
    units = int(whole) * UNITS_OF_A_DEGREE + decimals
    return -units if sign else units


def units_of(word):
    """The 1e-7 degrees of a number: perhaps a minus sign, one to three digits, perhaps a dot and one to seven digits."""
    parts = DEGREES.fullmatch(word)
    return signed(parts[1], parts[2], decimals_of(parts[3])) if parts else None


def decimal(text):
    """The position that a text of two numbers spells, latitude first; None where the text spells none."""
    numbers = tuple(map(units_of, two_words(text) or ()))
    return numbers if numbers and None not in numbers else None
