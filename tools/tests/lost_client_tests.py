"""tools/lost-client: against a small server in a thread, and against `lostd serve` where the built program has it."""
from __future__ import annotations

import json
import signal
import socket
import subprocess
import unittest
from typing import Any, Dict, List, Optional, Tuple

from maptools.connection import Broken
from maptools.feed import Patience
from maptools.digest import map_digest, mapping_digest
from tests.fake_servers import Replier, free_address, line_of, serve_once
from tests.running import TOOLS, TOP, has_serve, lostd, question, read, run_tool, start_tool

ANSWER = {
    "findServiceResponse": {
        "edition": 3,
        "locationUsed": "here",
        "locationValidation": {"invalid": ["HNO"], "unchecked": [], "valid": ["country", "A1"]},
        "mapping": [
            {
                "displayName": [{"lang": "en", "text": "Leonia Police"}, {"lang": "es", "text": "Policía"}],
                "expires": "NO-EXPIRATION",
                "lastUpdated": "2025-12-01T00:00:00Z",
                "service": "urn:service:sos",
                "serviceBoundaryReference": {"key": "leonia-1", "source": "map.example"},
                "serviceNumber": "911",
                "source": "map.example",
                "sourceId": "leonia",
                "uri": ["sip:police@leonia.example", "tel:+12015550111"],
            }
        ],
        "path": ["esrp.example", "lost.example"],
        "warnings": ["serviceSubstitution"],
    }
}

LOADED = b"3 lines: 2 edits staged, 1 commits, 0 refused; edition 2; the connection stays open\n"

def at(latitude: int, longitude: int) -> Dict[str, Any]:
    """The location of a point that the client asks for."""
    return {"id": "here", "profile": "geodetic-2d", "pos": [latitude, longitude]}


class Asking(unittest.TestCase):
    """One request and its reply."""

    def ask(self, reply: Any, *words: str) -> Tuple[int, str, str, Dict[str, Any]]:
        server, got = serve_once(lambda line: reply if isinstance(reply, bytes) else line_of(reply))
        status, output, said = run_tool("lost-client", [words[0], "--server", server, "--timeout", "5", *words[1:]])
        return status, output, said, json.loads(got[0])

    def test_the_requests(self) -> None:
        find = ["find", "--service", "urn:service:sos.police"]
        service = {"service": "urn:service:sos.police"}
        address = {"id": "here", "profile": "civic", "address": {"country": "US", "A1": "a=b"}}
        wishes = {"serviceBoundary": "value", "validateLocation": True}
        room, empty = ({"id": "here", "profile": "x-token", "token": token} for token in ("Room 1, é", ""))
        for words, request in (
            ([*find, "--point", "40.861,-73.988"], {"findService": {**service, "location": [at(408610000, -739880000)]}}),
            ([*find, "--point", "-0.00000005, 1.00000015"], {"findService": {**service, "location": [at(0, 10000002)]}}),
            ([*find, "--units", "--point", "-33,7"], {"findService": {**service, "location": [at(-33, 7)]}}),
            (
                [*find, "--value", "--validate", "--path", "esrp.example", "--address", "country=US", "A1=a=b"],
                {"findService": {**service, "path": ["esrp.example"], "location": [address], **wishes}},
            ),
            ([*find, "--token", "Room 1, é"], {"findService": {**service, "location": [room]}}),
            ([*find, "--token", ""], {"findService": {**service, "location": [empty]}}),
            (["services", "--token=Room 1, é"], {"listServicesByLocation": {"location": [room]}}),
            (["services"], {"listServices": {}}),
            (["services", "--service", "urn:service:sos"], {"listServices": {"service": "urn:service:sos"}}),
            (["services", "--point", "90,-180"], {"listServicesByLocation": {"location": [at(900000000, -1800000000)]}}),
            (["boundary", "--key", "leonia-1"], {"getServiceBoundary": {"key": "leonia-1"}}),
        ):
            self.assertEqual(self.ask({"errors": {"error": "notFound"}}, *words)[3], request)

    def test_what_is_found_is_laid_out(self) -> None:
        status, output, said, _ = self.ask(ANSWER, "find", "--service", "urn:service:sos.police", "--point", "40.861,-73.988")
        self.assertEqual((status, output, said), (0, read("client/found.text"), ""))

    def test_a_boundary_and_a_list_of_services_are_laid_out(self) -> None:
        regions = [{"polygon": [[408500000, -740000000], [0, 0], [5, 1], [408500000, -740000000]], "profile": "geodetic-2d"}]
        regions.append({"pattern": {"A1": "NJ", "country": "US"}, "profile": "civic"})
        regions.append({"profile": "x-token", "tokens": ["t1", "building 7, floor 3"]})
        reply = {"getServiceBoundaryResponse": {"edition": 3, "path": ["lost.example"], "serviceBoundary": regions}}
        self.assertEqual(self.ask(reply, "boundary", "--key", "k")[:2], (0, read("client/boundary.text")))
        reply = {"listServicesResponse": {"edition": 5, "path": ["lost.example"], "serviceList": ["urn:service:sos"]}}
        self.assertEqual(self.ask(reply, "services")[:2], (0, "urn:service:sos\nfrom lost.example, edition 5\n"))

    def test_json_prints_the_reply_alone(self) -> None:
        words = ["find", "--service", "urn:service:sos", "--point", "0,0", "--json"]
        self.assertEqual(self.ask(ANSWER, *words)[:3], (0, line_of(ANSWER).decode(), ""))
        error = {"errors": {"edition": 1, "error": "notFound"}}
        self.assertEqual(self.ask(error, *words)[:3], (3, line_of(error).decode(), ""))

    def test_an_error_of_lost_is_status_3(self) -> None:
        status, output, said, _ = self.ask({"errors": {"edition": 1, "error": "notFound"}}, "boundary", "--key", "k")
        self.assertEqual((status, output), (3, ""))
        self.assertEqual(said, "lost-client: notFound (edition 1): no mapping holds the place, or none has the key\n")

    def test_faults_of_the_connection_are_status_1(self) -> None:
        for reply in (b"no reply\n", b"{}\n", b"7\n", b'{"findServiceResponse":{}}\n', b'{"errors":7}\n'):
            self.assertEqual(self.ask(reply, "services")[0], 1, reply)
        self.assertEqual(run_tool("lost-client", ["services", "--server", free_address()])[0], 1)
        for replier in (lambda line: None, lambda line: b'{"half'):
            words = ["services", "--server", serve_once(replier)[0], "--timeout", "0.5"]
            self.assertEqual(run_tool("lost-client", words)[0], 1)

    def test_mistakes_on_the_command_line_are_status_2(self) -> None:
        find = ["find", "--server", "localhost:1", "--service", "urn:service:sos"]
        for words in (
            [], find, ["services"], ["services", "--server", "localhost"], ["services", "--server", "localhost:70000"],
            [*find, "--point", "91,0"], [*find, "--point", "408610000,-739880000"], [*find, "--point", "1"], [*find, "--point", "x,y"],
            [*find, "--point", "1,nan"], [*find, "--point", "1.5,2", "--units"], [*find, "--address", "A1"],
            [*find, "--point", "1,2", "--address", "A1=NJ"], [*find, "--point", "1,2", "--token", "t1"],
            [*find, "--address", "A1=NJ", "--token", ""], [*find, "--token"], ["services", "--server", "localhost:1", "--timeout", "0"],
        ):  # fmt: skip
            self.assertEqual(run_tool("lost-client", words)[0], 2, words)
        self.assertEqual(run_tool("lost-client", ["--help"])[0], 0)


def desk_replier() -> Replier:
    """Replies as a desk that refuses each line with a 7 in it."""
    state = {"pending": 0, "edition": 0}

    def reply(line: bytes) -> bytes:
        if b"7" in line:
            return line_of({"refused": {"code": 13, "name": "IdentityHeld"}})
        if b"commit" in line:
            state["edition"] += state["pending"]
            state["pending"] = 0
            return line_of({"committed": {"edition": state["edition"]}})
        state["pending"] += 1
        return line_of({"staged": {"pending": state["pending"]}})

    return reply


class Desk(unittest.TestCase):
    """Desk lines from a file and from standard input."""

    def test_refusals_are_said_with_their_lines(self) -> None:
        server, got = serve_once(desk_replier())
        given = '{"publish":{}}\n{"publish":7}\n\n{"commit":{}}\n{"publish":{}}'
        status, output, said = run_tool("lost-client", ["desk", "--server", server, "-"], given)
        self.assertEqual((status, b"".join(got)), (3, given.encode() + b"\n"))
        self.assertEqual(output, "5 lines: 3 edits staged, 1 commits, 1 refused; edition 2; 1 staged edits are not committed\n")
        refusal = "refused with code 13, IdentityHeld: a mapping with this source and sourceId is held; send it as replace"
        self.assertEqual(said, f"lost-client: standard input, line 2: {refusal}\n")

    def test_many_lines_are_written_while_replies_are_read(self) -> None:
        server, got = serve_once(desk_replier())
        given = '{"publish":{"filler":"' + "x" * 1000 + '"}}\n'
        status, output, _ = run_tool("lost-client", ["desk", "--server", server, "-"], given * 20_000 + '{"commit":{}}\n')
        self.assertEqual((status, len(got)), (0, 20_001))
        self.assertEqual(output, "20001 lines: 20000 edits staged, 1 commits, 0 refused; edition 20000\n")

    def test_an_empty_file_and_json(self) -> None:
        self.assertEqual(run_tool("lost-client", ["desk", "--server", serve_once(desk_replier())[0], "/dev/null"])[0], 0)
        output = run_tool("lost-client", ["desk", "--json", "--server", serve_once(desk_replier())[0], "-"], '{"commit":{}}\n')[1]
        self.assertEqual(output, '{"committed": {"edition": 0}}\n')

    def test_faults_are_status_1(self) -> None:
        def closes(line: bytes) -> Optional[bytes]:
            return None if b"commit" in line else line_of({"staged": {"pending": 1}})

        given = '{"publish":{}}\n{"commit":{}}\n{"publish":{}}\n'
        status, _, said = run_tool("lost-client", ["desk", "--server", serve_once(closes)[0], "-"], given)
        self.assertEqual((status, said.startswith("lost-client: the ")), (1, True), said)
        self.assertEqual(run_tool("lost-client", ["desk", "--server", serve_once(closes)[0], "/no/such/file"])[0], 1)
        self.assertEqual(run_tool("lost-client", ["desk", "--server", serve_once(closes)[0], "/"])[0], 1)
        self.assertEqual(run_tool("lost-client", ["desk", "--server", free_address(), "-"])[0], 1)

    def test_a_desk_that_waits_for_its_turn_says_so_once(self) -> None:
        with socket.create_server(("127.0.0.1", 0)) as listener:
            words = ["desk", "--server", "127.0.0.1:{}".format(listener.getsockname()[1]), f"{TOOLS}/cases/client/desk.jsonl"]
            client = start_tool("lost-client", words)
            said = client.stderr.readline()
            connection = listener.accept()[0]
            with connection, connection.makefile("rb") as lines:
                self.assertEqual((len(lines.readline()), lines.readline()), (15, b'{"commit":{}}\n'))
                connection.sendall(b'{"staged":{"pending":1}}\n{"committed":{"edition":1}}\n')
                output, more = client.communicate(timeout=10)
        wait = b"lost-client: no reply yet: another desk is probably being served; this one waits for its turn\n"
        self.assertEqual((said, more, client.returncode), (wait, b"", 0))
        self.assertEqual(output, b"2 lines: 1 edits staged, 1 commits, 0 refused; edition 1\n")

    def test_a_desk_waits_no_longer_than_it_is_told(self) -> None:
        with socket.create_server(("127.0.0.1", 0)) as listener:
            server = "127.0.0.1:{}".format(listener.getsockname()[1])
            status, _, said = run_tool("lost-client", ["desk", "--server", server, "--timeout", "0.5", "-"], '{"commit":{}}\n')
        why = "another desk is probably being served, and the server serves one at a time"
        self.assertEqual((status, said), (1, f"lost-client: no reply in 0.5 seconds: {why}\n"))

    def test_the_patience_of_a_desk(self) -> None:
        said: List[str] = []
        patience = Patience(None, said.append)
        patience.since -= 1
        patience.look(0)
        self.assertEqual(said, [])
        for _ in range(2):
            patience.since -= 10_000
            patience.look(0)
        self.assertEqual(said, ["no reply yet: another desk is probably being served; this one waits for its turn"])
        patience.begin_anew(True)
        patience.since -= 9
        patience.look(3)
        patience.since -= 2
        with self.assertRaisesRegex(Broken, r"\Ano reply in 10 seconds, after 3 replies\Z"):
            patience.look(3)
        self.assertEqual(len(said), 1)

    def keep_open(self, server: str, file: str) -> Any:
        return start_tool("lost-client", ["desk", "--server", server, "--keep-open", file])

    def test_keep_open_takes_standard_input_and_ends_with_it(self) -> None:
        server, got = serve_once(desk_replier())
        client = self.keep_open(server, f"{TOP}/tools/cases/client/desk.jsonl")
        loaded = client.stderr.readline()
        self.assertEqual(loaded, b"2 lines: 1 edits staged, 1 commits, 0 refused; edition 1; the connection stays open\n")
        client.stdin.write(b'{"publish":{}}\n{"publish":7}\n{"commit":{}}\n')
        output, said = client.communicate(timeout=10)
        self.assertEqual((client.returncode, len(got)), (3, 5))
        self.assertEqual(output, b"5 lines: 2 edits staged, 2 commits, 1 refused; edition 2\n")
        self.assertIn(b"lost-client: standard input, line 2: refused with code 13", said)

    def test_keep_open_ends_by_an_interrupt(self) -> None:
        client = self.keep_open(serve_once(desk_replier())[0], f"{TOP}/tools/cases/client/desk.jsonl")
        self.assertIn(b"stays open", client.stderr.readline())
        client.send_signal(signal.SIGINT)
        self.assertEqual(client.wait(timeout=10), 0)
        for stream in (client.stdin, client.stdout, client.stderr):
            stream.close()


@unittest.skipUnless(has_serve(), "lostd is not built, or has no serve")
class Serving(unittest.TestCase):
    """The built program."""

    def setUp(self) -> None:
        self.queries, self.desk = free_address(), free_address()
        words = [str(lostd()), "serve", "--name", "lost.example", "--queries", self.queries, "--desk", self.desk]
        words += ["--workers", "1", "--connections", "3"]
        self.server = subprocess.Popen(words, stdout=subprocess.PIPE, stderr=subprocess.PIPE)
        self.assertEqual(self.server.stdout.readline(), b"ready\n")

    def tearDown(self) -> None:
        self.server.kill()
        self.server.communicate()

    def test_a_map_is_loaded_and_asked_for(self) -> None:
        words = ["desk", "--server", self.desk, "--keep-open", f"{TOOLS}/cases/client/two-squares.jsonl"]
        client = start_tool("lost-client", words)
        self.assertEqual(client.stderr.readline(), LOADED)
        find = ["find", "--server", self.queries, "--service", "urn:service:sos.police", "--json"]
        status, output, _ = run_tool("lost-client", [*find, "--point", "0.5,1"])
        found = [mapping["sourceId"] for mapping in json.loads(output)["findServiceResponse"]["mapping"]]
        self.assertEqual((status, found), (0, ["east"]))
        self.assertEqual(run_tool("lost-client", [*find, "--point", "1,0.5"])[0], 3)
        status, output, _ = run_tool("lost-client", ["boundary", "--server", self.queries, "--key", "west-1"])
        self.assertEqual((status, output.splitlines()[0]), (0, "polygon of 5 positions, in degrees:"))
        client.stdin.write(question(0, 0).encode())
        self.assertIn(b"refused with code 1, BadLine", client.communicate(timeout=10)[1])
        self.assertEqual(client.returncode, 3)
        output, said = self.server.communicate(timeout=10)
        self.assertEqual(self.server.returncode, 0)
        with open(f"{TOOLS}/cases/client/two-squares.jsonl", encoding="utf-8") as file:
            values = [json.loads(line)["publish"] for line in file if "publish" in json.loads(line)]
        figures = f"committed 2 edits: edition 2, 2 mappings, map {map_digest(map(mapping_digest, values))}"
        self.assertRegex(said.decode(), rf"\Alostd: desk connection from 127\.0\.0\.1:[0-9]+: {figures}\n\Z")
        self.assertRegex(output, rb"\Adone lines=[0-9]+ faults=0\n\Z")

    def test_a_token_is_asked_for(self) -> None:
        with open(f"{TOP}/examples/three-kinds.jsonl", encoding="utf-8") as file:
            lines = file.readline() + file.readline()
        self.assertEqual(run_tool("lost-client", ["desk", "--server", self.desk, "-"], lines)[0], 0)
        find = ["find", "--server", self.queries, "--service", "urn:service:sos.police", "--value", "--token"]
        status, output, _ = run_tool("lost-client", [*find, "Room 1"])
        self.assertEqual((status, "\n    tokens\n      Room 1\n      hall\n" in output), (0, True), output)
        status, _, said = run_tool("lost-client", [*find, "room 1"])
        self.assertEqual((status, said[:31]), (3, "lost-client: notFound (edition "))
        self.assertIn("locationInvalid", run_tool("lost-client", [*find, ""])[2])
