"""Calls through Kamailio, HAProxy with TLS, the gateway and lostd: each must go where the map says."""
import json
import subprocess
import tempfile

from kamailio import FALLBACK, Kamailio, header
from processes import TOP, Gateway, Haproxy
from server import Server

SQUARE = [[0, 0], [0, 100_000_000], [100_000_000, 100_000_000], [100_000_000, 0], [0, 0]]
POSITION = "<gml:pos>5.25 6.75</gml:pos>"
SYSTEM = 'srsName="urn:ogc:def:crs:EPSG::4326"'
LOCATIONS = {
    "a point": f"<gml:Point {SYSTEM}>{POSITION}</gml:Point>",
    "a circle": f'<gs:Circle {SYSTEM}>{POSITION}<gs:radius uom="urn:ogc:def:uom:EPSG::9001">250</gs:radius></gs:Circle>',
    "an address": "<ca:civicAddress><ca:country>US</ca:country><ca:A1>NJ</ca:A1><ca:A3>Leonia</ca:A3></ca:civicAddress>",
}
# A service, where its calls go, and what Kamailio is told.
SERVICES = [
    ("urn:service:sos.police", "sips:police@psap.example", "200  Police of Leonia"),
    ("urn:service:sos.fire", "sip:sos@psap.example", "200  All calls"),
    ("urn:service:sos.ambulance", "sip:ambulance@psap.example", "200  ambulance-1"),
    ("urn:service:sos.mountain", "sip:mountain@psap.example", "200"),
    ("urn:service:counseling", FALLBACK, "500 serviceNotImplemented"),
]
SEA = f"<gml:Point {SYSTEM}><gml:pos>-50 -50</gml:pos></gml:Point>"
NO_PLACE = f"<gml:Point {SYSTEM}><gml:pos>91 0</gml:pos></gml:Point>"


def mapping(service, source_id, uris, name):
    """A publish line of a mapping over the square and the town."""
    regions = [{"profile": "geodetic-2d", "polygon": SQUARE}, {"profile": "civic", "pattern": {"country": "US", "A1": "NJ"}}]
    parts = {"source": "map.example", "sourceId": source_id, "lastUpdated": "2025-12-01T00:00:00Z", "expires": "NO-CACHE"}
    parts |= {"service": service, "uri": uris, "serviceBoundary": regions, "key": f"{source_id}-key"}
    if name is not None:
        parts["displayName"] = [{"lang": "en", "text": name}]
    return json.dumps({"publish": parts}).encode()


MAP = [
    mapping("urn:service:sos.police", "police", ["tel:911", "sip:no@psap.example", "sips:police@psap.example"], "Police of Leonia"),
    mapping("urn:service:sos", "sos", ["sip:sos@psap.example"], "All calls"),
    mapping("urn:service:sos.ambulance", "ambulance-1", ["sip:ambulance@psap.example"], None),
    mapping("urn:service:sos.mountain", "mountain", ["sip:mountain@psap.example"], ""),
    b'{"commit":{}}',
]


def wanted_calls():
    """What is called, from where, where it must go, and what Kamailio is told."""
    calls = [(service, place, LOCATIONS[place], contact, told) for place in LOCATIONS for service, contact, told in SERVICES]
    calls.append(("urn:service:sos.police", "the sea", SEA, FALLBACK, "500 notFound"))
    calls.append(("urn:service:sos.police", "no place", NO_PLACE, FALLBACK, "500 locationInvalid"))
    return calls


def wrong_call(kamailio, call):
    """What is wrong with a call; nothing where it went where it must."""
    service, place, location, contact, told = call
    try:
        reply = kamailio.call(service, location)
    except OSError as error:
        return [f"{service} at {place}: {error}; Kamailio {'lives' if kamailio.is_alive() else 'is gone'}"]
    got = (reply.split("\r\n")[0], header(reply, "Contact"), header(reply, "X-Lost"))
    wanted = ("SIP/2.0 302 Moved Temporarily", f"<{contact}>", told)
    return [] if got == wanted else [f"{service} at {place}: {got} and not {wanted}"]


def failed_calls(kamailio, calls):
    """What is wrong with calls, and with Kamailio after them."""
    wrong = [text for call in calls for text in wrong_call(kamailio, call)]
    return wrong + ([] if kamailio.is_alive() else [f"Kamailio is gone: {kamailio.texts()[-500:]}"])


def through_all(program):
    """calls through Kamailio, HAProxy with TLS, the gateway and lostd go where the map says, and Kamailio lives"""
    with Server(program, 4, 1000) as server:
        server.desk().ask_all(MAP)
        with Gateway([server.queries]) as gateway, Haproxy(gateway.port) as haproxy:
            with Kamailio(f"https://127.0.0.1:{haproxy.port}/lost", haproxy.certificate) as kamailio:
                return failed_calls(kamailio, wanted_calls() * 3)


def servers_gone(program):
    """where lostd is gone, and then the gateway too, calls go to Kamailio's own fallback, and Kamailio lives"""
    police = ("urn:service:sos.police", "a point", LOCATIONS["a point"])
    with Server(program, 4, 1000) as server:
        server.desk().ask_all(MAP)
        with Gateway([server.queries], "--timeout", "0.5") as gateway, Haproxy(gateway.port) as haproxy:
            with Kamailio(f"https://127.0.0.1:{haproxy.port}/lost", haproxy.certificate) as kamailio:
                wrong = failed_calls(kamailio, [(*police, "sips:police@psap.example", "200  Police of Leonia")])
                server.stop()
                wrong += failed_calls(kamailio, [(*police, FALLBACK, "500 serverTimeout")])
                gateway.end()
                return wrong + failed_calls(kamailio, [(*police, FALLBACK, "400")])


def documents_of(log):
    """The requests and the answers of a log of the gateway."""
    with open(log, encoding="utf-8") as file:
        lines = [json.loads(line) for line in file]
    return [line[name] for line in lines for name in ("request", "reply")]


def valid_answers(program):
    """what Kamailio asks and what it is answered is valid by lost.rnc, says jing"""
    with tempfile.TemporaryDirectory() as folder, Server(program, 4, 1000) as server:
        server.desk().ask_all(MAP)
        log = f"{folder}/log"
        with Gateway([server.queries], "--log", log) as gateway:
            with Kamailio(f"http://127.0.0.1:{gateway.port}/lost", "") as kamailio:
                wrong = failed_calls(kamailio, [call for call in wanted_calls() if call[1] != "no place"])
        files = []
        for number, document in enumerate(documents_of(log)):
            files.append(f"{folder}/{number}.xml")
            with open(files[-1], "w", encoding="utf-8") as file:
                file.write(document)
        ran = subprocess.run(["jing", "-c", f"{TOP}/tools/gateway/lost.rnc", *files[2:]], capture_output=True, timeout=120)
        return wrong + ran.stdout.decode().splitlines()[:5] + ([] if len(files) > 30 else [f"{len(files)} documents"])
