"""What the fields and the service URNs of NENA's GIS data model stand for (NENA-STA-006, NENA-STA-010)."""
from __future__ import annotations

from typing import Any, Dict

from maptools.texts import SERVICE_PREFIX, lowered

# The prefixes of NENA's service URNs.
PREFIXES = ("urn:emergency:service:", "urn:nena:service:")
# The option of the command line, and the template that it has by --nena unless it is given.
TEMPLATES = {
    "source": "{Agency_ID}",
    "source_id": "{NGUID}",
    "service": "{ServiceURN}",
    "uri": "{ServiceURI}",
    "updated": "{DateUpdate}",
    "expires": "{Expire?}",
    "service_number": "{ServiceNum?}",
    "display": "{DsplayName?}",
}
# Fields of the first version of the model, and what they are called since.
OLDER_FIELDS = {"ES_NGUID": "NGUID"}

TABLE = """with --nena:
  --source Agency_ID, --source-id NGUID (or ES_NGUID), --service ServiceURN, --uri ServiceURI, --service-number ServiceNum,
  --display en=DsplayName, --updated DateUpdate, --expires Expire (NO-EXPIRATION where there is none); an option that is
  given goes first. Service URNs become those of RFC 5031, with a hyphen for each underscore:
    urn:emergency:service:sos.police  ->  urn:service:sos.police
    urn:nena:service:sos.police       ->  urn:service:sos.police
    urn:nena:service:sos.call_taker   ->  urn:service:sos.call-taker
    urn:service:sos.police            ->  as it is
"""


def service_named(text: str) -> str:
    """A service URN of NENA's as one of RFC 5031; another text stays as it is."""
    low = lowered(text)
    for prefix in PREFIXES:
        if low.startswith(prefix):
            return SERVICE_PREFIX + text[len(prefix) :].replace("_", "-")
    return text


def with_new_names(properties: Dict[str, Any]) -> Dict[str, Any]:
    """Properties with the fields of the first version under their names of today too."""
    added = {new: properties[old] for old, new in OLDER_FIELDS.items() if old in properties and properties.get(new) in (None, "")}
    return {**properties, **added} if added else properties
