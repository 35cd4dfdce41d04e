"""The outline of a mapping: what the rules of a book look at, digests of all else, and that of the whole.

It stands for the mapping in a book, so that a large map takes little memory, and two mappings have equal outlines where a
server shows no difference between them.
"""
from __future__ import annotations

import hashlib
from typing import Any, Dict

from maptools.desk_rules import MEMBERS, contents_of
from maptools.digest import mapping_digest
from maptools.lines import line_of
from maptools.texts import lowered


def digest_of(value: Any) -> str:
    """32 digits of a list or an object; none where it is empty."""
    return hashlib.blake2b(line_of(value).encode(), digest_size=16).hexdigest() if value else ""


def rest_of(value: Dict[str, Any]) -> Dict[str, Any]:
    """The members that no rule of a book looks at, as a server understands them."""
    return {
        "default": value.get("default") is True,
        "displayName": [[name["lang"], name["text"]] for name in value.get("displayName") or []],
        "expires": value["expires"],
        "service": lowered(value["service"]),
        "serviceNumber": value.get("serviceNumber"),
        "uri": value["uri"],
    }


def outline_of(value: Dict[str, Any]) -> Dict[str, Any]:
    """The outline of a mapping that codes 1 to 12 let through."""
    return {
        "source": lowered(value["source"]),
        "sourceId": value["sourceId"],
        "lastUpdated": value["lastUpdated"],
        "key": value.get("key"),
        "serviceBoundary": [
            {"profile": profile, member: digest_of(contents_of(value, profile))} for profile, member in MEMBERS.items()
        ],
        "rest": digest_of(rest_of(value)),
        "digest": mapping_digest(value),
    }
