"""Tests the gateway's schema, and the gateway itself, against the schema of RFC 5222."""
from __future__ import annotations

import random
import shutil
import subprocess
import tempfile
import unittest
from typing import List

from tests.gateway_running import OWN_SCHEMA, STANDARD_SCHEMA, Gateway, canonical, cases, has_packages, invalid_of
from tests.gateway_standard_tests import mapping
from tests.server import READY, Server, has_maps
from tests.serving_tests import free_port

FRONT = 'xmlns="urn:ietf:params:xml:ns:lost1" xmlns:g="http://www.opengis.net/gml" xmlns:e="urn:example:extension"'
CONTENTS = (
    "<g:Point><g:pos>1 2</g:pos></g:Point>", '<g:Point srsName="EPSG:4326"><g:pos>1 2 3</g:pos></g:Point>', "<g:Point/>", "",
    "<e:cell e:number='7' other='x'>12<e:sector>3</e:sector><plain xmlns=''/></e:cell>", "<e:a/><e:b/>",
    '<civicAddress xmlns="urn:ietf:params:xml:ns:pidf:geopriv10:civicAddr"><country>US</country><A1>NJ</A1></civicAddress>',
    '<civicAddress xmlns="urn:ietf:params:xml:ns:pidf:geopriv10:civicAddr"/>', "<g:Envelope><e:x/></g:Envelope>",
    '<gs:Circle xmlns:gs="http://www.opengis.net/pidflo/1.0"><g:pos>1 2</g:pos></gs:Circle>',
    '<token xmlns="urn:x-lostd:gateway">t1</token>', "<e:findService><service>urn:x</service></e:findService>",
)  # fmt: skip
SERVICES = (
    "urn:service:sos", "urn:service:sos.police", "urn:service:a.b.c.d.e.f.g.h.i", "urn:nena:service:sos.psap", "sos", "", " urn:x ",
    "http://example.com/?a=b#c", "urn:service:", "URN:SERVICE:SOS", "urn:service:sos_x", "../x", "mailto:a@example.com",
)  # fmt: skip
PROFILES = ("geodetic-2d", "civic", "x-token", "x-cell", "x.1:2", "geodetic-3d")


class Drawn:
    """Draws requests that the schema of RFC 5222 allows; no two locations of a request are of one profile, as section 8.3.1 wants."""

    def __init__(self, seed: int) -> None:
        self.dice = random.Random(seed)

    def extensions(self) -> str:
        """Elements of other namespaces, or none."""
        return "".join(self.dice.choices(CONTENTS[:10], k=self.dice.choice((0, 0, 0, 1, 2))))

    def locations(self) -> str:
        """Some locations: with a profile or without."""
        profiles = [*PROFILES, *(f"x-{number}" for number in range(8)), None, None]
        chosen = self.dice.sample(profiles, self.dice.choice((1, 1, 1, 2, 3, 9, 12)))
        return "".join(self.location(number, profile) for number, profile in enumerate(chosen))

    def location(self, number: int, profile: object) -> str:
        """A location."""
        said = f' profile="{profile}"' if profile else ""
        name = self.dice.choice((f"l{number}", f" l {number} ", "&lt;&quot;&#xE9;", ""))
        return f'<location id="{name}"{said}>{self.dice.choice(CONTENTS)}{self.extensions()}</location>'

    def path(self) -> str:
        """A path, or none."""
        count = self.dice.choice((0, 0, 1, 3, 32, 33, 50))
        vias = "".join(f'<via source="s{number}.example">{self.extensions()}</via>' for number in range(count))
        return f"<path>{vias}</path>" if count else ""

    def common(self) -> str:
        """What is common to three of the requests."""
        service = self.dice.choice(SERVICES)
        said = f"<service>{service}</service>" if self.dice.random() < 0.8 else ""
        return said + self.path() + self.extensions()

    def wishes(self, **values: str) -> str:
        """Attributes, each there or not."""
        return "".join(f' {name}="{self.dice.choice(said.split())}"' for name, said in values.items() if self.dice.random() < 0.5)

    def request(self) -> str:
        """A request of any of the four kinds."""
        booleans = "true false 1 0"
        kind = self.dice.choice(("findService", "findService", "listServicesByLocation", "listServices", "getServiceBoundary"))
        if kind == "findService":
            said = self.wishes(validateLocation=booleans, serviceBoundary="reference value", recursive=booleans)
            return f"<{kind} {FRONT}{said}>{self.locations()}{self.common()}</{kind}>"
        if kind == "listServicesByLocation":
            return f"<{kind} {FRONT}{self.wishes(recursive=booleans)}>{self.locations()}{self.common()}</{kind}>"
        if kind == "listServices":
            return f"<{kind} {FRONT}>{self.common()}</{kind}>"
        return f'<{kind} {FRONT} key="{self.dice.choice(("A", " a  b ", "&#xE9;", "", "x" * 300))}">{self.extensions()}</{kind}>'


@unittest.skipUnless(has_packages() and has_maps(), "the packages of Debian that the gateway needs, or lostd, are missing")
class AgainstTheStandard(unittest.TestCase):
    """What the standard allows is no bad request."""

    def test_what_the_standard_allows_is_no_bad_request(self) -> None:
        drawn = Drawn(5)
        requests = [drawn.request() for _ in range(400)]
        self.assertEqual(invalid_of([request.encode() for request in requests], STANDARD_SCHEMA), "")
        outcomes: List[str] = []
        with tempfile.NamedTemporaryFile("w", suffix=".jsonl") as file:
            file.write(mapping("urn:service:sos", "A") + '\n{"commit":{}}\n')
            file.flush()
            port = free_port()
            with Server(["--map", file.name, "--queries", f"127.0.0.1:{port}"]) as server, Gateway(f"127.0.0.1:{port}") as gateway:
                self.assertEqual(server.first_line(), READY)
                for request in requests:
                    outcomes.append(gateway.post(request).outcome())
                    self.assertNotIn(outcomes[-1], ("badRequest", "internalError", "serverError", "serverTimeout"), request)
        # All that may become of such a request does become of some.
        wanted = {"findServiceResponse", "listServicesResponse", "listServicesByLocationResponse", "getServiceBoundaryResponse"}
        wanted |= {"notFound", "serviceNotImplemented", "locationInvalid", "locationProfileUnrecognized"}
        self.assertEqual(set(outcomes), wanted)

    def test_requests_of_the_tables_that_are_valid_and_refused_break_another_rule_of_the_standard(self) -> None:
        refused = [case for case in cases("requests") if "line" not in case.parts]
        refused += [case for case in cases("causes") if case.parts["error"].startswith("badRequest")]
        said = invalid_of([case.parts["xml"].encode() for case in refused], STANDARD_SCHEMA)
        invalid = {int(line.split()[0]) for line in said.splitlines()}
        valid = {case.name for number, case in enumerate(refused) if number not in invalid}
        one_profile = {"two locations of one profile", "two locations of one profile that nobody knows"}
        self.assertEqual(valid, {*one_profile, "a response is no request"})

    @classmethod
    def tearDownClass(cls) -> None:
        wrong = invalid_of(Gateway.seen)
        if wrong:
            raise AssertionError(f"not valid by lost.rng or by the standard: {wrong}")


class Spellings(unittest.TestCase):
    """Both schemas, each in two spellings."""

    @unittest.skipUnless(shutil.which("trang"), "trang is not there")
    def test_both_spellings_are_the_same(self) -> None:
        for schema in (OWN_SCHEMA, STANDARD_SCHEMA):
            with tempfile.TemporaryDirectory() as folder:
                subprocess.run(["trang", schema.replace(".rng", ".rnc"), f"{folder}/made.rng"], check=True, timeout=60)
                with open(f"{folder}/made.rng", "rb") as made, open(schema, "rb") as kept:
                    self.assertEqual(canonical(made.read()), canonical(kept.read()))
