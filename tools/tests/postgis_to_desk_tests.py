"""postgis-to-desk: the edits from a map to the rows of a table. What needs PostGIS is skipped where it is not installed."""
from __future__ import annotations

import json
import glob
import subprocess
import sys
import unittest
from typing import Any, Dict, List, Tuple

from maptools.connection import Broken
from maptools.feeding.held import HeldMap
from maptools.feeding.log import Commit
from maptools.feeding.standing import EMPTY
from tests.fake_servers import free_address
from tests.feed_database import COMMIT, WithDatabase, await_that
from tests.feed_fakes import A, B, C, MemoryLog, commits_of, digest, line
from tests.running import TOOLS, lostd, run_tool

from database import programs  # (its folder is on the path since feed_database was read)

WORDS = ["--source", "county.example", "--service", "urn:service:sos.police", "--source-id", "{code}", "--uri", "sip:{code}@police.example"]
WORDS += ["--display", "en={name}", "--updated", "now"]
TABLE = """CREATE EXTENSION IF NOT EXISTS postgis; CREATE TABLE districts (code text PRIMARY KEY, name text, area geometry(Polygon, 4326));
INSERT INTO districts SELECT 'd' || i, 'District ' || i, ST_MakeEnvelope(i, 0, i + 1, 1, 4326) FROM generate_series(0, 19) AS i;
CREATE FUNCTION tell() RETURNS trigger LANGUAGE plpgsql AS $$ BEGIN NOTIFY districts; RETURN NULL; END $$;
CREATE TRIGGER tell AFTER INSERT OR UPDATE OR DELETE OR TRUNCATE ON districts FOR EACH STATEMENT EXECUTE FUNCTION tell();"""


class Held(unittest.TestCase):
    """The map that the log says."""

    def test_it_grows_with_the_log(self) -> None:
        held = HeldMap()
        self.assertEqual(held.catch_up(MemoryLog([])).book.held, {})
        for mappings in ([A], [A, B, C], [B]):
            book = held.catch_up(MemoryLog(commits_of(*mappings))).book
            self.assertEqual([one["sourceId"] for one in book.held.values()], [one["sourceId"] for one in mappings])
            book.held.clear()
        self.assertEqual(held.standing.map, digest(B))
        with self.assertRaisesRegex(Broken, "edition 1 has a line that is no edit"):
            HeldMap().catch_up(MemoryLog([Commit(0, 1, COMMIT, "")]))
        self.assertEqual(HeldMap().standing, EMPTY)


class CommandLine(unittest.TestCase):
    """What is wrong before there is a database."""

    def test_mistakes(self) -> None:
        for words, wanted in (
            ([], "give either --log or --against"),
            (["--log", "x", "--against", "y"], "give either --log or --against"),
            (["--against", "y"], "--against needs --database"),
            (["--against", "y", "--database", "x", "--publish"], "--publish needs --log"),
        ):
            status, output, said = run_tool("postgis-to-desk", ["districts", *WORDS, *words])
            self.assertEqual((status, output, len(said.splitlines())), (2, "", 1))
            self.assertIn(wanted, said)

    def test_no_database_or_no_driver(self) -> None:
        status, output, said = run_tool("postgis-to-desk", ["districts", *WORDS, "--log", f"postgresql://{free_address()}/lost"])
        self.assertEqual((status, output), (1, ""))
        self.assertRegex(said, r"^postgis-to-desk: (no connection to the database: .*|.* lacks the module psycopg2: .*)\n$")


class Tables(WithDatabase):
    """A table in the log's database."""

    tool = "postgis-to-desk"

    @classmethod
    def setUpClass(cls) -> None:
        if programs() and not glob.glob("/usr/share/postgresql/*/extension/postgis.control"):
            print("postgis-to-desk: the tests with a table are skipped: PostGIS is not installed", file=sys.stderr)
            raise unittest.SkipTest("PostGIS is not installed")
        super().setUpClass()

    def setUp(self) -> None:
        super().setUp()
        self.sql(TABLE)

    def sql(self, text: str) -> str:
        """Runs statements."""
        return self.database.sql(self.name, f"SET client_min_messages = error; {text}")

    def convert(self, *words: str, table: str = "districts") -> Tuple[int, List[Dict[str, Any]], str]:
        """The status, the lines, and what is said."""
        status, output, said = run_tool("postgis-to-desk", [table, *WORDS, *(words or ("--log", self.log))])
        return status, [json.loads(one) for one in output.splitlines()], said

    def send(self, *words: str) -> str:
        """Publishes the edits; what is said of them."""
        status, output, said = run_tool("postgis-to-desk", ["districts", *WORDS, "--log", self.log, "--publish", "--lostd", str(lostd()), *words])
        self.assertEqual(status, 0, said)
        self.assertEqual(len(output.splitlines()), 1 if "unchanged" in said and " 0 to publish, 0 to replace, 0 to withdraw" not in said else 0)
        return said

    def edits(self) -> List[Tuple[str, str]]:
        """The kinds and sourceIds of the edits from the log to the table."""
        return [(kind, value.get("sourceId", "")) for one in self.convert()[1] for kind, value in one.items()]

    def test_only_what_changed_makes_an_edit(self) -> None:
        self.assertIn("20 to publish, 0 to replace, 0 to withdraw, 0 unchanged", self.send())
        self.assertEqual(self.edits(), [])
        self.sql("""UPDATE districts SET name = 'Other' WHERE code = 'd7'; DELETE FROM districts WHERE code = 'd8';
            UPDATE districts SET area = ST_MakeEnvelope(9, 0, 10, 2, 4326) WHERE code = 'd9';
            INSERT INTO districts VALUES ('new', 'New', ST_MakeEnvelope(30, 0, 31, 1, 4326)); UPDATE districts SET name = name""")
        self.assertEqual(self.edits(), [("withdraw", "d8"), ("replace", "d7"), ("replace", "d9"), ("publish", "new"), ("commit", "")])
        self.assertIn("1 to publish, 2 to replace, 1 to withdraw, 17 unchanged", self.send())
        self.assertEqual(self.edits(), [])

    def test_keys_are_those_of_geojson_to_desk(self) -> None:
        ring = [[3, 0], [3, 1], [4, 1], [4, 0], [3, 0]]
        feature = {"type": "Feature", "properties": {"code": "d3", "name": "District 3"}, "geometry": {"type": "Polygon", "coordinates": [ring]}}
        wanted = json.loads(run_tool("geojson-to-desk", ["-", *WORDS], json.dumps(feature))[1])["publish"]
        found = next(one["publish"] for one in self.convert()[1] if one.get("publish", {}).get("sourceId") == "d3")
        self.assertEqual({**found, "lastUpdated": ""}, {**wanted, "lastUpdated": ""})

    def test_views_other_reference_systems_and_primary_keys(self) -> None:
        self.sql("""CREATE VIEW one_district AS SELECT code, name, ST_Transform(area, 3857) AS area FROM districts WHERE code = 'd3'""")
        wanted = next(one for one in self.convert()[1] if one["publish"]["sourceId"] == "d3")
        self.assertEqual(self.convert(table="one_district")[1][0]["publish"]["key"], wanted["publish"]["key"])
        self.assertEqual(self.convert("--log", self.log, "--source-id", "{@id}", table="districts")[1][0]["publish"]["sourceId"], "d0")

    def test_the_edits_from_a_file(self) -> None:
        self.send()
        path = f"{self.folder}/map.jsonl"
        with open(path, "w", encoding="utf-8") as file:
            file.write(self.feed("snapshot")[1])
        against = ("--database", self.log, "--against", path)
        self.assertEqual(self.convert(*against)[:2], (0, []))
        self.sql("DELETE FROM districts WHERE code = 'd0'")
        self.assertEqual([list(one) for one in self.convert(*against)[1]], [["withdraw"], ["commit"]])

    def test_other_sources_stay_and_many_withdrawals_are_a_mistake(self) -> None:
        self.publish(line("publish", A), COMMIT)
        self.assertIn("20 to publish, 0 to replace, 0 to withdraw", self.send())
        self.sql("TRUNCATE districts")
        status, lines, said = self.convert("--log", self.log, "--without-faulty")
        self.assertEqual((status, [one for one in lines if "commit" in one]), (2, []))
        self.assertIn("20 of the 21 mappings held would be withdrawn, more than 10, and more than 5%: is districts whole?", said)
        self.assertEqual(run_tool("postgis-to-desk", ["districts", *WORDS, "--log", self.log, "--publish", "--lostd", str(lostd())])[:2], (2, ""))
        self.assertIn("20 to withdraw", self.send("--most-withdrawn", "20"))
        self.assertIn(digest(A), self.feed("status")[1])

    def test_a_row_that_is_left_out_stays_as_it_is(self) -> None:
        self.send()
        self.sql("UPDATE districts SET area = NULL WHERE code = 'd1'; UPDATE districts SET name = 'x' WHERE code = 'd2'")
        status, lines, said = self.convert()
        self.assertEqual((status, [list(one) for one in lines]), (3, [["replace"]]))
        self.assertIn("postgis-to-desk: row 2 (id 'd1'): it has no geometry: it is null\n", said)

    def test_no_such_table_or_geometry(self) -> None:
        self.assertEqual(self.convert(table="nothing")[2], 'postgis-to-desk: relation "nothing" does not exist\n')
        self.sql("CREATE TABLE plain (code text); ALTER TABLE districts ADD other geometry")
        self.assertIn("plain has the geometries none", self.convert(table="plain")[2])
        self.assertIn("districts has the geometries area, other: name one with --geometry", self.convert()[2])
        self.assertEqual(self.convert("--log", self.log, "--geometry", "area")[0], 0)
        self.assertIn("districts has no geometry x: it has area, other", self.convert("--log", self.log, "--geometry", "x")[2])

    def test_it_follows_the_table(self) -> None:
        words = ["districts", *WORDS, "--log", self.log, "--publish", "--lostd", str(lostd()), "--follow", "districts"]
        process = subprocess.Popen([f"{TOOLS}/postgis-to-desk", *words], stdout=subprocess.DEVNULL, stderr=subprocess.DEVNULL)
        self.addCleanup(process.wait, 20)
        self.addCleanup(process.terminate)
        await_that(lambda: "edition 20," in self.feed("status")[1], "nothing is published")
        self.sql("UPDATE districts SET name = 'x' WHERE code = 'd2'")
        await_that(lambda: "edition 21," in self.feed("status")[1], "the change is not published")
