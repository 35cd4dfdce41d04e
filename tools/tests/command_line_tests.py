"""Mistakes on the command lines of the tools: one line each, with the nearest option and the command's own --help."""
from __future__ import annotations

import json
import subprocess
import unittest

from tests.running import TOP, run_tool

# A command, words with a mistake, the word that is not expected, and the option that is meant.
UNEXPECTED = [
    ("geojson-to-desk", ["--servce", "urn:service:sos.police"], "--servce", "--service"),
    ("geojson-to-desk", ["--commmit=x"], "--commmit", "--commit"),
    ("addresses-to-desk", ["addresses.csv", "--distrct", "{esn}"], "--distrct", "--district"),
    ("desk-to-geojson", ["--sever", "unix:desk.sock"], "--sever", "--server"),
    ("desk-to-svg", ["--bbx", "0,0,1,1"], "--bbx", "--bbox"),
    ("map-check", ["--outlne", "county.geojson"], "--outlne", "--outline"),
    ("map-page", ["--findngs", "found.json"], "--findngs", "--findings"),
    ("lost-client find", ["--sevice", "urn:service:sos"], "--sevice", "--service"),
    ("lost-client desk", ["--dryrun", "map.jsonl"], "--dryrun", "--dry-run"),
    ("lost-feed publish", ["--log", "x", "--eech", "map.jsonl"], "--eech", "--each"),
    ("lost-feed follow", ["--log", "x", "--most-behnd", "5"], "--most-behnd", "--most-behind"),
    ("lost-gateway", ["--lisen", "127.0.0.1:8080"], "--lisen", "--listen"),
    ("postgis-to-desk", ["districts", "--folow", "districts"], "--folow", "--follow"),
    ("map-page", ["--nothing-like-it"], "--nothing-like-it", ""),
    ("desk-to-geojson", ["a.jsonl", "b.jsonl"], "b.jsonl", ""),
]
# The same of what builds, packs, installs and tests.
OWN = [("./build", "--portabel", "--portable"), ("./install", "--unts", "--units"), ("tools/test", "--lostdd", "--lostd")]
# A command, words with another mistake, and what is said of it.
OTHERS = [
    ("lost-client find", ["--serv", "x"], "ambiguous option: --serv could match --service, --server"),
    ("map-check", ["--outline"], "argument --outline: expected one argument"),
    ("addresses-to-desk", [], "the following arguments are required: --district"),
]


class Complaints(unittest.TestCase):
    """Many lines that are no desk lines, as when GeoJSON is given for them."""

    def test_of_many_like_faults_20_are_said(self) -> None:
        for tool, cause in (("desk-to-svg", "standard input, line {}: not a line that the server knows"), ("desk-to-geojson", "line {}: not a desk line")):
            status, _, said = run_tool(tool, ["-"], "nonsense\n" * 300 + '{"commit":[]}\n')
            place = cause.format(300).partition(": ")[0]
            wanted = [f"{tool}: {cause.format(number)}" for number in range(1, 21)]
            wanted += [f"{tool}: {cause.format(301).partition(': ')[0]}: refused with code 1, BadLine: the value is not an object"] if tool == "desk-to-svg" else []
            self.assertEqual((status, said.splitlines()), (3, [*wanted, f"{tool}: 280 more lines with like faults, the last of them {place}"]))

    def test_geojson_is_told_from_a_faulty_line(self) -> None:
        geojson = json.dumps({"type": "FeatureCollection", "features": []})
        for tool in ("desk-to-svg", "desk-to-geojson"):
            status, _, said = run_tool(tool, ["-"], geojson)
            self.assertEqual(status, 3)
            self.assertTrue(said.endswith(": if this is GeoJSON, geojson-to-desk makes desk lines of it\n"), said)


class Mistakes(unittest.TestCase):
    """What is said of a mistake."""

    def says(self, command: str, words: list, text: str) -> None:
        """Fails unless a mistake is said in just this line."""
        tool, *below = command.split()
        self.assertEqual(run_tool(tool, [*below, *words]), (2, "", f"{command}: {text}; see `{command} --help`\n"))

    def test_an_unknown_option_names_the_nearest_one(self) -> None:
        for command, words, word, meant in UNEXPECTED:
            with self.subTest(command=command, words=words):
                self.says(command, words, f"unexpected argument {word!r} found" + (f" (did you mean {meant!r}?)" if meant else ""))

    def test_so_do_the_commands_of_the_repository(self) -> None:
        for command, word, meant in OWN:
            with self.subTest(command=command):
                ran = subprocess.run([command, word], cwd=TOP, capture_output=True, text=True, timeout=60)
                wanted = f"{command}: unexpected argument {word!r} found (did you mean {meant!r}?); see `{command} --help`\n"
                self.assertEqual((ran.returncode, ran.stdout, ran.stderr), (2, "", wanted))

    def test_other_mistakes_take_one_line(self) -> None:
        for command, words, text in OTHERS:
            with self.subTest(command=command, words=words):
                self.says(command, words, text)

    def test_the_beginning_of_an_option_and_values_that_look_like_options_are_taken(self) -> None:
        lines = '{"commit":{}}\n'
        status, picture, said = run_tool("desk-to-svg", ["--tit", "--no option"], lines)
        self.assertEqual((status, said, "--no option" in picture), (0, "", True))
        self.assertEqual(run_tool("desk-to-svg", ["--title=--none"], lines)[::2], (0, ""))
        self.assertEqual(run_tool("desk-to-geojson", ["--line"], lines)[::2], (0, ""))
