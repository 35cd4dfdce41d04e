"""Templates: text with {NAME} where the value of a property stands."""
from __future__ import annotations

import re
from decimal import Decimal
from typing import Any, Dict, List, Optional, Tuple

from maptools.meridian import Unfit
from maptools.texts import is_unicode

PIECE = re.compile(r"\{\{|\}\}|\{[^{}]+\}|[^{}]+|[{}]")
NO_URI_BYTE = re.compile(rb"[^!-~]")

Template = List[Tuple[bool, str]]


class NoValue(Unfit):
    """A property without a value that a template needs."""

    def __init__(self, name: str) -> None:
        super().__init__(f"has no value of the property {name!r}")
        self.name = name


def template_of(text: str) -> Template:
    """The pieces of a template, each with whether it is the name of a property."""
    pieces = []
    for piece in PIECE.findall(text):
        if piece in "{}":
            raise ValueError(f"{text!r} has a single {piece}: a property is written {{name}}, and a brace {{{{ or }}}}")
        is_name = piece.startswith("{") and piece != "{{"
        pieces.append((is_name, piece[1:-1] if is_name else piece.replace("{{", "{").replace("}}", "}")))
    return pieces


def text_of(name: str, value: Any) -> Optional[str]:
    """A property's value as text; None where it has none."""
    if value is None or value == "":
        return None
    if isinstance(value, bool):
        return str(value).lower()
    if isinstance(value, Decimal):
        return format(value, "f") if -50 < value.adjusted() < 50 else str(value)
    if not isinstance(value, (str, int)):
        raise Unfit(f"has a property {name!r} that is neither text nor a number")
    if not is_unicode(str(value)):
        raise Unfit(f"has a property {name!r} that is not Unicode text")
    return str(value)


def fill(template: Template, properties: Dict[str, Any], for_uri: bool = False) -> Optional[str]:
    """The text of a template; None where a property that is marked with ? has no value."""
    result = ""
    for is_name, piece in template:
        if not is_name:
            result += piece
            continue
        is_optional = piece.endswith("?") and piece not in properties
        name = piece[:-1] if is_optional else piece
        text = text_of(name, properties.get(name))
        if text is None and is_optional:
            return None
        if text is None:
            raise NoValue(name)
        result += uri_text(text) if for_uri else text
    return result


def uri_text(text: str) -> str:
    """A text with each byte that no URI has, such as a space, written as % and two digits."""
    return NO_URI_BYTE.sub(lambda byte: b"%%%02X" % byte[0][0], text.encode()).decode()


def names_of(template: Template) -> List[str]:
    """The properties that a template names."""
    return [piece[:-1] if piece.endswith("?") else piece for is_name, piece in template if is_name]
