"""tools/addresses-to-desk: each address of the input is asked of `lostd replay`, and the patterns are as few as they can be."""
from __future__ import annotations

import csv
import io
import itertools
import json
import os
import pty
import random
import subprocess
import unittest
from typing import Any, Dict, FrozenSet, List, Sequence, Tuple

from maptools.set_cover import fewest
from tests.running import TOOLS, found_in, lostd, replay, run_tool

COMMON = ["--district", "{esn}", "--source", "map.example", "--service", "urn:service:sos.police", "--updated", "2026-01-02T00:00:00Z",
          "--uri", "sip:police@map.example"]  # fmt: skip
# The levels of a pattern, from the town inwards, and what it may name besides: written down once more.
LEVELS = [["country", "A1", "A2", "A3"], ["PRD", "RD", "STS"], ["HNO", "HNS"], ["BLD"], ["UNIT"]]
BESIDE = ["A4", "PC"]

Address = Dict[str, str]
Listed = Tuple[Address, str]


def address(**elements: str) -> Address:
    """An address in one county."""
    return {"country": "US", "A1": "NJ", **elements}


def csv_of(listed: Sequence[Listed]) -> str:
    """A file of addresses and their districts."""
    names = sorted({name for one, _ in listed for name in one})
    text = io.StringIO()
    writer = csv.writer(text)
    writer.writerow([*names, "esn"])
    writer.writerows([*(one.get(name, "") for name in names), district] for one, district in listed)
    return text.getvalue()


def convert(listed: Sequence[Listed], *more: str) -> Tuple[int, List[Dict[str, Any]], str]:
    """The status, the mappings, and what is said."""
    status, output, said = run_tool("addresses-to-desk", [*COMMON, *more], csv_of(listed))
    return status, [json.loads(line)["publish"] for line in output.splitlines() if "commit" not in line], said


def patterns_of(mapping: Dict[str, Any]) -> List[Address]:
    """The patterns of a mapping."""
    return [region["pattern"] for region in mapping["serviceBoundary"]]


def asked(mappings: Sequence[Dict[str, Any]], addresses: Sequence[Address]) -> List[List[str]]:
    """What the server finds at each address."""
    lines = [{"publish": mapping} for mapping in mappings] + [{"commit": {}}]
    places = [[{"id": "a", "profile": "civic", "address": one}] for one in addresses]
    lines += [{"findService": {"service": "urn:service:sos.police", "location": place}} for place in places]
    return [found_in(reply) for reply in replay("".join(json.dumps(line) + "\n" for line in lines))[len(mappings) + 1 :]]


def matches(pattern: Address, one: Address) -> bool:
    """Whether a pattern matches an address, both spelled alike."""
    return all(one.get(name) == value for name, value in pattern.items())


def allowed(one: Address) -> List[FrozenSet[Tuple[str, str]]]:
    """Every pattern that may be written for an address."""
    found = set()
    for depth in range(len(LEVELS)):
        names = [name for level in LEVELS[: depth + 1] for name in level if name in one]
        besides = [name for name in BESIDE if name in one]
        for count in range(len(besides) + 1):
            for more in itertools.combinations(besides, count):
                found.add(frozenset((name, one[name]) for name in [*names, *more]))
    return list(found)


def least(listed: Sequence[Listed], district: str) -> int:
    """How many patterns a district needs, found by trying."""
    own = [one for one, its in listed if its == district]
    others = [one for one, its in listed if its != district]
    right = {pattern for one in own for pattern in allowed(one) if not any(matches(dict(pattern), other) for other in others)}
    served = {frozenset(number for number, one in enumerate(own) if matches(dict(pattern), one)) for pattern in right}
    best = [serves for serves in served if not any(serves < other for other in served)]
    for count in range(1, len(own) + 1):
        for some in itertools.combinations(best, count):
            if len(frozenset().union(*some)) == len(own):
                return count
    raise AssertionError("an address cannot be served")


def random_town(seed: int) -> List[Listed]:
    """A few addresses in a few districts of a state of their own, many of which share what they can."""
    draw = random.Random(seed)
    found: Dict[FrozenSet[Tuple[str, str]], Listed] = {}
    for _ in range(draw.randint(3, 11)):
        one = address(A1=f"S{seed}", A3=draw.choice("TU"), RD=draw.choice("abc"), HNO=draw.choice("123"), PC=draw.choice(["7", "8", ""]))
        one["A4"] = draw.choice(["", "", "north"])
        one["UNIT"] = draw.choice(["", "", "", "5"])
        one["STS"] = draw.choice(["", "", "St"])
        one = {name: value for name, value in one.items() if value}
        found[frozenset(one.items())] = one, f"{seed}{draw.choice('ABC' if seed % 3 else 'AB')}"
    listed = list(found.values())
    clashing = [one for one, district in listed if any(matches(one, other) and its != district for other, its in listed)]
    return [(one, district) for one, district in listed if one not in clashing]


class Fewest(unittest.TestCase):
    """As few patterns as there can be, and each right."""

    @unittest.skipUnless(lostd(), "lostd is not built")
    def test_random_towns(self) -> None:
        towns = [random_town(seed) for seed in range(60)]
        listed = [one for town in towns for one in town]
        status, mappings, said = convert(listed)
        self.assertEqual(status, 0, said)
        self.assertEqual(asked(mappings, [one for one, _ in listed]), [[district] for _, district in listed])
        count = {mapping["sourceId"]: len(mapping["serviceBoundary"]) for mapping in mappings}
        self.assertEqual(count, {district: least(town, district) for town in towns for _, district in town})

    def test_covers_are_the_least(self) -> None:
        draw = random.Random(1)
        for _ in range(300):
            rows = {frozenset(draw.sample(range(7), draw.randint(1, 3))) for _ in range(draw.randint(1, 9))}
            chosen = fewest(rows)
            self.assertTrue(all(row & chosen for row in rows))
            smaller = itertools.combinations(range(7), len(chosen) - 1)
            self.assertFalse(any(all(row & set(some) for row in rows) for some in smaller), rows)

    def test_a_town_of_one_district_needs_one_pattern(self) -> None:
        listed = [(address(A3="Leonia", RD=f"Street {road}", HNO=str(house)), "A") for road in range(30) for house in range(10)]
        listed += [(address(A3="Fort Lee", RD="Main", HNO="1"), "B")]
        _, mappings, said = convert(listed)
        self.assertEqual([patterns_of(mapping) for mapping in mappings], [[address(A3="Leonia")], [address(A3="Fort Lee")]])
        self.assertIn("addresses-to-desk: A: 1 of 256 patterns, for district A, from 300 rows\n", said)

    def test_whole_says_how_wide_a_pattern_may_be(self) -> None:
        listed = [(address(A2="Bergen", A3=town, RD="Main", HNO="1"), "A") for town in ("Leonia", "Fort Lee")]
        for whole, count, names in (("A3", 2, {"country", "A1", "A2", "A3"}), ("A2", 1, {"country", "A1", "A2"}), ("A1", 1, {"country", "A1"})):
            patterns = patterns_of(convert(listed, "--whole", whole)[1][0])
            self.assertEqual((len(patterns), set(patterns[0])), (count, names))

    def test_an_address_without_a_town_is_not_served_by_its_state(self) -> None:
        listed = [(address(RD="Main", HNO=house), "A") for house in "12"]
        self.assertEqual(patterns_of(convert(listed)[1][0]), [address(RD="Main")])

    def test_a_postal_code_serves_where_it_says_the_same(self) -> None:
        listed = [(address(A3="T", RD=f"r{road}", HNO="1", PC=str(road % 2)), "AB"[road % 2]) for road in range(20)]
        self.assertEqual([patterns_of(mapping) for mapping in convert(listed)[1]], [[address(A3="T", PC="0")], [address(A3="T", PC="1")]])


class Lines(unittest.TestCase):
    """Centre lines with ranges."""

    FIELDS = ("FromAddr_L", "ToAddr_L", "Parity_L", "FromAddr_R", "ToAddr_R", "Parity_R", "ESN_L", "ESN_R")

    def lines(self, *rows: Sequence[Any], **more: str) -> Tuple[int, List[Dict[str, Any]], str]:
        """The mappings of centre lines of a town, by a file of GeoJSON."""
        town = {"Country_L": "US", "Country_R": "US", "State_L": "NJ", "State_R": "NJ", "IncMuni_L": "T", "IncMuni_R": "T"}
        text = "".join(
            json.dumps({"type": "Feature", "geometry": None, "properties": {**town, **dict(zip(("St_Name", *self.FIELDS), row)), **more}}) + "\n"
            for row in rows
        )
        words = ["{ESN}" if word == "{esn}" else word for word in COMMON]
        status, output, said = run_tool("addresses-to-desk", words, text)
        return status, [json.loads(line)["publish"] for line in output.splitlines()], said

    @unittest.skipUnless(lostd(), "lostd is not built")
    def test_each_number_of_each_side_is_found(self) -> None:
        status, mappings, said = self.lines(
            ("Main", 1, 9, "O", 2, 10, "E", "A", "B"), ("Main", 19, 11, "O", 12, 16, "B", "A", "A"), ("Oak", 1, 99, "O", 0, 0, "Z", "A", "A"),
            ("Elm", 100, 104, "", 101, 103, None, "B", "B"),
        )  # fmt: skip
        self.assertEqual(status, 0, said)
        wanted = {("Main", number): "A" for number in (*range(1, 20, 2), *range(12, 17))}
        wanted.update({("Main", number): "B" for number in range(2, 11, 2)})
        wanted.update({("Oak", number): "A" for number in range(1, 100, 2)})
        wanted.update({("Elm", number): "B" for number in (100, 101, 102, 103, 104)})
        places = [address(A3="T", RD=road, HNO=str(number)) for road, number in wanted]
        self.assertEqual(asked(mappings, places), [[district] for district in wanted.values()])
        self.assertEqual([len(mapping["serviceBoundary"]) for mapping in mappings], [14, 6])
        beyond = [address(A3="T", RD="Main", HNO=number) for number in ("21", "18", "0")]
        self.assertEqual(asked(mappings, beyond), [[], [], []])
        self.assertIn("A: 14 of 256 patterns, for district A, from 4 rows\n", said)
        self.assertIn("B: 6 of 256 patterns, for district B, from 3 rows\n", said)

    def test_a_prefix_and_the_parts_of_a_street(self) -> None:
        row = ("Broad", 1, 3, "O", 2, 4, "E", "A", "B")
        more = {"AdNumPre_L": "N", "St_PreDir": "W", "St_PreTyp": "Avenue", "St_PosTyp": "Road", "PostCode_L": "07605"}
        mappings = self.lines(row, **more)[1]
        street = {"PRD": "W", "RD": "Avenue Broad", "STS": "Road"}
        self.assertEqual(patterns_of(mappings[0]), [address(A3="T", PC="07605")])
        self.assertEqual(patterns_of(mappings[1]), [address(A3="T", HNO=number, **street) for number in "24"])
        self.assertEqual(self.lines(row, **{**more, "PostCode_L": ""})[1][0]["serviceBoundary"][0]["pattern"], address(A3="T", HNO="N1", **street))

    def test_what_is_wrong_with_a_range_is_said(self) -> None:
        for row, cause in (
            (("Main", 1, 9, "E", 0, 0, "Z", "A", "A"), "feature 1: its left side has a range from 1 to 9 whose parity is 'E'"),
            (("Main", 0, 0, "Z", 2, 9, "X", "A", "A"), "feature 1: its right side has the parity 'X', which is none of E, O, B and Z"),
            (("Main", "1a", 9, "O", 0, 0, "Z", "A", "A"), "feature 1: its left side has '1a' as the end of a range, which is not a whole number"),
            (("Main", 1, 999999, "O", 0, 0, "Z", "A", "A"), "feature 1: its left side has a range from 1 to 999999, which is longer than 100,000: is it a mistake?"),
            (("Main", 1, 9, "O", 2, 4, "E", "A", None), "feature 1, right side: it has no value of the property 'ESN'"),
        ):
            with self.subTest(cause):
                status, _, said = self.lines(row, ("Oak", 1, 3, "O", 2, 4, "E", "A", "B"))
                self.assertEqual((status, said.splitlines()[0]), (3, f"addresses-to-desk: {cause}"))


class Limits(unittest.TestCase):
    """256 patterns, and one more."""

    def streets(self, count: int) -> List[Listed]:
        """A town in which each street of a district needs a pattern."""
        listed = [(address(A3="T", RD=f"r{road}", HNO=house), "A") for road in range(count) for house in "12"]
        return [*listed, (address(A3="T", RD="other", HNO="1"), "B")]

    def test_256_patterns_are_one_mapping_and_257_are_refused(self) -> None:
        status, mappings, said = convert(self.streets(256))
        self.assertEqual((status, [len(mapping["serviceBoundary"]) for mapping in mappings]), (0, [256, 1]))
        self.assertIn("A: 256 of 256 patterns", said)
        status, mappings, said = convert(self.streets(257), "--commit")
        self.assertEqual((status, [mapping["sourceId"] for mapping in mappings]), (3, ["B"]))
        self.assertIn("district A: it needs 257 patterns, and a mapping has at most 256: --split makes 2 mappings of it\n", said)
        self.assertIn("no commit line is written", said)

    @unittest.skipUnless(lostd(), "lostd is not built")
    def test_a_split_district_has_several_mappings_and_each_address_finds_one(self) -> None:
        listed = self.streets(600)
        status, mappings, said = convert(listed, "--split")
        self.assertEqual((status, [mapping["sourceId"] for mapping in mappings]), (0, ["A-1", "A-2", "A-3", "B"]))
        self.assertEqual([len(mapping["serviceBoundary"]) for mapping in mappings], [256, 256, 88, 1])
        self.assertEqual(len({mapping["key"] for mapping in mappings}), 4)
        found = asked(mappings, [one for one, _ in listed])
        self.assertEqual([[name[0] for name in names] for names in found], [[district] for _, district in listed])
        self.assertIn("A-3: 88 of 256 patterns, for district A, from 1,200 rows\n", said)


class Faults(unittest.TestCase):
    """What is left out, and mistakes."""

    def test_an_address_of_two_districts_is_said_and_is_in_none(self) -> None:
        one, inner = address(A3="T", RD="Main", HNO="1"), address(A3="T", RD="Main", HNO="1", UNIT="2")
        other = address(A3="T", RD="Main", HNO="3")
        twice = "addresses-to-desk: line {}: no pattern tells its address, which is in district {}, from that of line {}, which is in district {}"
        status, mappings, said = convert([(one, "A"), (one, "B"), (other, "A")], "--commit")
        self.assertEqual((status, [patterns_of(mapping) for mapping in mappings]), (3, [[other]]))
        self.assertEqual(said.splitlines()[:2], [twice.format(2, "A", 3, "B"), twice.format(3, "B", 2, "A")])
        status, mappings, said = convert([(one, "A"), (inner, "B"), (other, "A")])
        self.assertEqual((status, [patterns_of(mapping) for mapping in mappings]), (3, [[other], [inner]]))
        self.assertEqual(said.splitlines()[0], twice.format(2, "A", 3, "B"))

    def test_values_compare_as_the_server_compares_them(self) -> None:
        listed = [(address(A3="T", RD="Main  St", HNO="1"), "A"), (address(A3=" t", RD="main st ", HNO="2"), "A"), (address(A3="T", RD="Oak", HNO="1"), "B")]
        self.assertEqual([patterns_of(mapping) for mapping in convert(listed)[1]], [[address(A3="T", RD="Main  St")], [address(A3="T", RD="Oak")]])

    def test_a_column_of_a_member_is_the_same_in_all_rows(self) -> None:
        text = "A3,RD,esn,name\nT,a,A,North\nT,b,A,North\nT,c,B,South\nT,d,B,East\n"
        status, output, said = run_tool("addresses-to-desk", [*COMMON, "--display", "en={name}"], text)
        self.assertEqual((status, output.count("\n")), (3, 1))
        self.assertIn("district B: it has 'South' as 'name' at line 4, and 'East' at line 5\n", said)

    def test_rows_without_a_district_or_an_address(self) -> None:
        status, output, said = run_tool("addresses-to-desk", COMMON, "A3;RD;esn\nT;a;A\nT;b;\n\n;;A\n")
        self.assertEqual((status, output.count("\n")), (3, 1))
        self.assertIn("line 3: it has no value of the property 'esn'\n", said)
        self.assertIn("line 5: it has no element of an address: name the columns with --element, such as RD={street}\n", said)

    def test_openaddresses(self) -> None:
        text = "LON,LAT,NUMBER,STREET,UNIT,CITY,DISTRICT,REGION,POSTCODE,ID,HASH,ESN\n0,0,1,MAIN ST,2,Leonia,Bergen,NJ,07605,7,x,12\n0,0,1,MAIN ST,3,Leonia,Bergen,NJ,07605,8,y,13\n"
        words = ["{ESN}" if word == "{esn}" else word for word in COMMON]
        status, output, said = run_tool("addresses-to-desk", [*words, "--element", "country=US"], text)
        self.assertEqual(status, 0, said)
        street = {"A2": "Bergen", "A3": "Leonia", "RD": "MAIN ST", "HNO": "1"}
        found = [patterns_of(json.loads(line)["publish"]) for line in output.splitlines()]
        self.assertEqual(found, [[address(**street, UNIT="2")], [address(**street, UNIT="3")]])

    def test_a_terminal_is_told_how_far_it_is(self) -> None:
        text = "A3,RD,HNO,esn\n" + "".join(f"T,Main,{number},A\n" for number in range(2500))
        ours, its = pty.openpty()
        words = [f"{TOOLS}/addresses-to-desk", *COMMON]
        subprocess.run(words, input=text.encode(), stdout=subprocess.DEVNULL, stderr=its, timeout=60, check=True)
        os.close(its)
        said = os.read(ours, 10_000).decode().replace("\r\n", "\n")
        os.close(ours)
        clear = "\r\x1b[K"
        progress = f"{clear}addresses-to-desk: 1,000 rows{clear}addresses-to-desk: 2,000 rows{clear}"
        self.assertTrue(said.startswith(f"{progress}addresses-to-desk: A: 1 of 256 patterns, for district A, from 2,500 rows\n"), said)

    def test_mistakes_of_the_command_line(self) -> None:
        text = csv_of([(address(A3="T", RD="a"), "A"), (address(A3="U", RD="a"), "B")])
        for words, status, said in (
            (["--help"], 0, ""),
            (["--element", "A9=x"], 2, "'A9=x' is not ELEMENT=TEMPLATE, such as country=US or A3={town}"),
            (["--whole", "A9"], 2, "invalid choice"),
            (["--service", "police"], 2, "addresses-to-desk: --service: 'police' is not a service URN, such as urn:service:sos.police\n"),
            (["--district", "{esm}"], 2, "addresses-to-desk: no row has a value of the property 'esm': did you mean 'esn'?\n"),
            (["--source-id", "one"], 2, "addresses-to-desk: --source-id: 'one' is the same for every district: write a property into it, such as {code}\n"),
            (["/no/such/file"], 1, "addresses-to-desk: "),
        ):
            with self.subTest(words):
                ran = run_tool("addresses-to-desk", [*COMMON, *words], text)
                self.assertEqual(ran[0], status)
                self.assertIn(said, ran[2])
        help_text = run_tool("addresses-to-desk", ["--help"])[1]
        for column in ("postcode PC", "St_PosTyp STS", "FromAddr_L", "IncMuni_L A3", "OpenAddresses"):
            self.assertIn(column, help_text)


if __name__ == "__main__":
    unittest.main()
