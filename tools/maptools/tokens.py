"""The tokens of a feature: a property that holds a text or a list of texts."""
from __future__ import annotations

from typing import Any, List

from maptools.desk_rules import MOST_TOKENS, is_text_list
from maptools.meridian import Unfit
from maptools.texts import is_id, is_unicode


def need_token(text: str) -> None:
    """Unfit where a text is no token."""
    if not is_unicode(text):
        raise Unfit(f"has a token that is not Unicode text, {text!r}")
    if not is_id(text):
        raise Unfit(f"has a text that is no token, {text!r}: a token has 1 to 128 bytes, and no control byte")


def tokens_of(name: str, value: Any) -> List[str]:
    """The tokens of the property of a name, in its order; none where it has no value."""
    if value is None or value == "" or value == []:
        return []
    tokens = [value] if isinstance(value, str) else value
    if not is_text_list(tokens):
        raise Unfit(f"has a property {name!r} that is neither a text nor a list of texts")
    for token in tokens:
        need_token(token)
    if len(tokens) > MOST_TOKENS:
        raise Unfit(f"has {len(tokens)} tokens, and at most {MOST_TOKENS} are allowed: split it into features")
    twice = [token for token in tokens if tokens.count(token) > 1]
    if twice:
        raise Unfit(f"has the token {twice[0]!r} twice")
    return tokens
