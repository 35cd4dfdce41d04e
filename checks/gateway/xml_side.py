"""Requests as XML and answers as members of a line: a second reading of RFC 5222, which shares no code with the gateway."""
import re
import xml.etree.ElementTree as ElementTree
from decimal import Decimal
from typing import NamedTuple
from xml.sax.saxutils import escape, quoteattr

LOST = "{urn:ietf:params:xml:ns:lost1}"
GML = "{http://www.opengis.net/gml}"
CIVIC = "{urn:ietf:params:xml:ns:pidf:geopriv10:civicAddr}"
TOKEN = "{urn:x-lostd:gateway}token"
LANG = "{http://www.w3.org/XML/1998/namespace}lang"
SPACES = (
    'xmlns="urn:ietf:params:xml:ns:lost1" xmlns:gml="http://www.opengis.net/gml" '
    'xmlns:ca="urn:ietf:params:xml:ns:pidf:geopriv10:civicAddr"'
)
NAME = re.compile(r"[A-Za-z_][A-Za-z0-9_-]*")
LANGUAGE = re.compile(r"[A-Za-z]{1,8}(-[A-Za-z0-9]{1,8})*")
# The kinds of requests, and the members that say nothing in a line and have no place in a document.
FOREIGN = {
    "findService": (),
    "listServicesByLocation": (),
    "listServices": ("location",),
    "getServiceBoundary": ("location", "service"),
}


MOST_LOCATIONS, MOST_SERVERS = 8, 32
KNOWN_SYSTEM = "urn:ogc:def:crs:EPSG::4326"
SAID = ("location", "service", "path", "validateLocation", "serviceBoundary", "key")
KNOWN_PROFILES = ("geodetic-2d", "civic", "x-token")
LABEL = "[a-z0-9]([a-z0-9-]{0,61}[a-z0-9])?"
SERVICE = re.compile(rf"urn:service:{LABEL}(\.{LABEL}){{0,7}}", re.IGNORECASE | re.ASCII)


class Inexpressible(Exception):
    """A line that no document says."""


def need(is_so):
    """A line has what a document can say."""
    if not is_so:
        raise Inexpressible


def plain(value):
    """A text without control characters, and without white space that XML would change."""
    need(isinstance(value, str) and value.isprintable() and value == " ".join(value.split()))
    return value


def degrees(unit):
    """A whole unit in degrees."""
    need(isinstance(unit, int) and not isinstance(unit, bool) and abs(unit) < 10_000_000_000)
    return format(Decimal(unit).scaleb(-7), "f")


def location_xml(item):
    """A location."""
    need(isinstance(item, dict) and set(item) <= {"id", "profile", "pos", "srsName", "address"})
    need(item.get("profile") != "")
    front = f"<location id={quoteattr(plain(item.get('id')))} profile={quoteattr(plain(item.get('profile')))}>"
    return front + content_xml(item) + "</location>"


def content_xml(item):
    """What lies in a location; of an unknown profile it does not matter."""
    if item["profile"] == "geodetic-2d":
        need(isinstance(item.get("pos"), list) and len(item["pos"]) == 2)
        system = f" srsName={quoteattr(plain(item['srsName']))}" if item.get("srsName") is not None else ""
        return f"<gml:Point{system}><gml:pos>{degrees(item['pos'][0])} {degrees(item['pos'][1])}</gml:pos></gml:Point>"
    if item["profile"] == "civic":
        need(isinstance(item.get("address"), dict) and all(NAME.fullmatch(name) for name in item["address"]))
        parts = [f"<ca:{name}>{escape(plain(value))}</ca:{name}>" for name, value in item["address"].items()]
        return f"<ca:civicAddress>{''.join(parts)}</ca:civicAddress>"
    return '<x xmlns="urn:x"/>'


def wishes_xml(members):
    """The attributes of a request."""
    words = ""
    if members.get("validateLocation") is not None:
        need(isinstance(members["validateLocation"], bool))
        words += f' validateLocation="{str(members["validateLocation"]).lower()}"'
    if members.get("serviceBoundary") is not None:
        words += f" serviceBoundary={quoteattr(plain(members['serviceBoundary']))}"
    if members.get("key") is not None:
        words += f" key={quoteattr(plain(members['key']))}"
    return words


def request_xml(line):
    """A request line as a document; Inexpressible where none says it."""
    need(isinstance(line, dict) and len(line) == 1 and set(line) <= set(FOREIGN))
    ((kind, members),) = line.items()
    need(isinstance(members, dict) and all(members.get(name) is None for name in FOREIGN[kind]))
    inside = ""
    if members.get("location") is not None:
        need(isinstance(members["location"], list))
        inside += "".join(map(location_xml, members["location"]))
    if members.get("service") is not None:
        inside += f"<service>{escape(plain(members['service']))}</service>"
    if members.get("path") is not None:
        need(isinstance(members["path"], list))
        inside += "<path>" + "".join(f"<via source={quoteattr(plain(name))}/>" for name in members["path"]) + "</path>"
    return f"<{kind} {SPACES}{wishes_xml(members)}>{inside}</{kind}>"


class Sent(NamedTuple):
    """What goes out for a request: a line, whether its service is none that lostd can have, and servers that it is not told of."""

    line: dict
    is_unserved: bool
    earlier: list


def said_by(item):
    """The members of a location that a document says of it: those of its profile."""
    return [name for name in {"geodetic-2d": ("pos", "srsName"), "civic": ("address",)}.get(item["profile"], ()) if item.get(name) is not None]


def sent_locations(locations):
    """The locations that go out; None where two are of one profile, or none is there."""
    profiles = [item["profile"] for item in locations]
    if not locations or len(set(profiles)) < len(profiles):
        return None
    items = [{name: item[name] for name in ("id", "profile", *said_by(item))} for item in locations]
    known = [item for item in items if item["profile"] in KNOWN_PROFILES]
    chosen = (known or items[:1]) if len(items) > MOST_LOCATIONS else items
    for item in chosen:
        if str(item.get("srsName")).lower() == KNOWN_SYSTEM.lower():
            item["srsName"] = KNOWN_SYSTEM
    return chosen


def as_sent(line, name):
    """What goes out for a request line that a document says, to a server of this name; None where it is a bad request before."""
    ((kind, given),) = line.items()
    members = {key: value for key, value in given.items() if value is not None and key in SAID}
    if kind == "findService" and members.get("serviceBoundary", "value") not in ("reference", "value"):
        return None
    if kind in ("findService", "listServicesByLocation"):
        members["location"] = sent_locations(members.get("location", []))
        if members["location"] is None:
            return None
    path = members.get("path", [])
    if len(path) > MOST_SERVERS:
        earlier, members["path"] = path[:-MOST_SERVERS], path[-MOST_SERVERS:]
        if name in [source.lower() for source in earlier]:
            members["path"] = [name]
    is_unserved = kind == "findService" if "service" not in members else SERVICE.fullmatch(members["service"]) is None
    if is_unserved and kind != "getServiceBoundary":
        kind = "listServices" if kind == "listServices" else "listServicesByLocation"
        members = {key: members[key] for key in ("location", "path") if key in members}
    return Sent({kind: members}, is_unserved, path[:-MOST_SERVERS])


def as_answered(reply, sent):
    """What is answered of a reply to the line that went out."""
    ((name, members),) = reply.items()
    if name == "errors":
        return reply
    if sent.is_unserved:
        return {"errors": {"edition": members["edition"], "error": "serviceNotImplemented"}}
    return {name: {**members, "path": [*sent.earlier, *members["path"]]}}


def local(element):
    """The name of an element without its namespace."""
    return element.tag.rpartition("}")[2]


def region(boundary):
    """A region of a boundary."""
    profile = boundary.get("profile")
    if profile == "geodetic-2d":
        ring = boundary.find(f"{GML}Polygon/{GML}exterior/{GML}LinearRing")
        points = [[int(Decimal(word).scaleb(7)) for word in (pos.text or "").split()] for pos in ring.findall(f"{GML}pos")]
        return {"polygon": points, "profile": profile}
    if profile == "x-token":
        return {"profile": profile, "tokens": [token.text or "" for token in boundary.findall(TOKEN)]}
    address = boundary.find(f"{CIVIC}civicAddress")
    return {"pattern": {element.tag.replace(CIVIC, ""): element.text or "" for element in address}, "profile": profile}


def mapping(element):
    """A mapping of an answer."""
    told = {name: element.get(name) for name in ("expires", "lastUpdated", "source", "sourceId")}
    told["service"] = element.findtext(f"{LOST}service")
    told["uri"] = [uri.text for uri in element.findall(f"{LOST}uri")]
    told["displayName"] = [{"lang": one.get(LANG), "text": one.text or ""} for one in element.findall(f"{LOST}displayName")]
    if element.find(f"{LOST}serviceNumber") is not None:
        told["serviceNumber"] = element.findtext(f"{LOST}serviceNumber")
    if element.find(f"{LOST}serviceBoundary") is not None:
        told["serviceBoundary"] = [region(boundary) for boundary in element.findall(f"{LOST}serviceBoundary")]
    reference = element.find(f"{LOST}serviceBoundaryReference")
    if reference is not None:
        told["serviceBoundaryReference"] = {"key": reference.get("key"), "source": reference.get("source")}
    return told


def validation(element):
    """What became of each element of an address; the prefix of addresses is ca."""
    return {local(part): [name.replace("ca:", "", 1) for name in (part.text or "").split()] for part in element}


def answer_members(xml, edition):
    """The members of an answer, as a line of reply has them."""
    root = ElementTree.fromstring(xml)
    told = {} if edition is None else {"edition": int(edition)}
    if local(root) == "errors":
        return {"errors": {**told, "error": local(root[0])}}
    if local(root) == "findServiceResponse":
        told["mapping"] = [mapping(element) for element in root.findall(f"{LOST}mapping")]
    if root.find(f"{LOST}locationValidation") is not None:
        told["locationValidation"] = validation(root.find(f"{LOST}locationValidation"))
    if root.find(f"{LOST}serviceList") is not None:
        told["serviceList"] = (root.findtext(f"{LOST}serviceList") or "").split()
    if root.find(f"{LOST}serviceBoundary") is not None:
        told["serviceBoundary"] = [region(boundary) for boundary in root.findall(f"{LOST}serviceBoundary")]
    if root.find(f"{LOST}warnings") is not None:
        told["warnings"] = [local(element) for element in root.find(f"{LOST}warnings")]
    told["path"] = [via.get("source") for via in root.findall(f"{LOST}path/{LOST}via")]
    if root.find(f"{LOST}locationUsed") is not None:
        told["locationUsed"] = root.find(f"{LOST}locationUsed").get("id")
    return {local(root): told}


def as_told(line):
    """What an answer may tell of a line of reply: docs/GATEWAY.md says what is made up, and what XML cannot write."""
    ((name, members),) = written(line).items()
    for one in members.get("mapping", []):
        names = one.get("displayName") or [{"lang": "und", "text": one["sourceId"]}]
        one["displayName"] = [{"lang": language(each["lang"]), "text": on_one_line(each["text"])} for each in names]
    return {name: members}


def language(text):
    """A tag of a language; "und" where it is none."""
    return text if LANGUAGE.fullmatch(text) else "und"


def on_one_line(text):
    """A text with spaces for its line breaks."""
    return text.replace("\r\n", " ").replace("\r", " ").replace("\n", " ")


def written(value):
    """A value with U+FFFD for each character of its texts that XML cannot write."""
    if isinstance(value, str):
        return "".join(c if c in "\t\n\r" or " " <= c and c not in "\ufffe\uffff" else "\ufffd" for c in value)
    if isinstance(value, list):
        return [written(item) for item in value]
    return {name: written(item) for name, item in value.items()} if isinstance(value, dict) else value
