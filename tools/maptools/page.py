"""Makes the page of map-page: one file with all that it needs, Leaflet too."""
from __future__ import annotations

import base64
import hashlib
import html
import os
import re
from typing import Dict

LEAFLET = "/usr/share/javascript/leaflet"
PARTS = os.path.join(os.path.dirname(os.path.realpath(__file__)), "page")
# The scripts of the page, in the order in which they use one another.
SCRIPTS = ("rules.js", "data.js", "words.js", "drawing.js", "edges.js", "layer.js", "panel.js", "main.js")
PLACE = re.compile("@([A-Z_]+)@")
POLICY = "default-src 'none'; script-src {}; style-src 'unsafe-inline'; img-src data:; connect-src 'self'"


class NoLeaflet(Exception):
    """Leaflet is not there."""


def text_of(path: str) -> str:
    """The text of a file."""
    with open(path, encoding="utf-8") as file:
        return file.read()


def leaflet_text(name: str) -> str:
    """A file of Leaflet; NoLeaflet where Debian's package is not there."""
    try:
        return text_of(f"{LEAFLET}/{name}")
    except OSError as error:
        reason = f"{LEAFLET}/{name} cannot be read ({error.strerror})"
        raise NoLeaflet(f"{reason}: install Debian's package libjs-leaflet") from None


def script_text() -> str:
    """The page's own scripts as one."""
    return "".join(text_of(f"{PARTS}/{name}") for name in SCRIPTS)


def digest_of(script: str) -> str:
    """What the policy of the page lets a script run by."""
    return f"'sha256-{base64.b64encode(hashlib.sha256(script.encode()).digest()).decode()}'"


def without_links(text: str) -> str:
    """A style without its pictures, and a script without the link to its map: the page has no other files."""
    return re.sub(r"^//# sourceMappingURL=.*$", "", re.sub(r"url\([^)]*\)", "none", text), flags=re.MULTILINE)


def page_of(title: str, data: bytes) -> str:
    """The page of a map that page_data packed."""
    leaflet, script = without_links(leaflet_text("leaflet.min.js")), script_text()
    parts: Dict[str, str] = {
        "TITLE": html.escape(title),
        "POLICY": POLICY.format(" ".join(map(digest_of, (leaflet, script)))),
        "LEAFLET_STYLE": without_links(leaflet_text("leaflet.css")),
        "STYLE": text_of(f"{PARTS}/page.css"),
        "LEAFLET": leaflet,
        "SCRIPT": script,
        "DATA": base64.b64encode(data).decode(),
    }
    return PLACE.sub(lambda place: parts[place.group(1)], text_of(f"{PARTS}/page.html"))
