"""How often the gateway misses a district that covers an eighth of an area, by the kind of map; judged by shapely's own overlay."""
import json
import os
import random
import zlib

import sites
from areas import asked, overlays, publish, request
from processes import GATEWAY, Gateway
from server import COMMIT, Server

LEAST, QUARTER = 0.125, 0.25
# A share that is so near to an eighth is not judged: outlines are drawn in two ways.
CLOSE = 0.002
AREAS, A_ROW, APART = 150, 20, 1.0
CORNER = (40.0, 0.0)
SEED = 11
# Of strips that others overlap this share may be missed; of all else nothing.
MOST_MISSED = 0.05
OVERLAPPED = (sites.strips_special, sites.strips_inside_another)
# The gateway that is measured.
MEASURED = os.environ.get("LOST_GATEWAY", GATEWAY)


class Site:
    """An area, and by name the rings and the service of each district around it."""

    def __init__(self, dice, kind, number):
        centre = [CORNER[0] + APART * (number // A_ROW), CORNER[1] + APART * (number % A_ROW)]
        drawing = sites.drawn(dice, centre)
        self.area = drawing.area
        self.districts = {
            f"s{number}-{name}": ([sites.ring_of(centre, ring) for ring in district.rings], district.service)
            for name, district in kind(dice, drawing).items()
        }

    def lines(self):
        """The desk's lines."""
        return [publish(name, rings, service) for name, (rings, service) in self.districts.items()]

    def given(self):
        """What the overlay reads."""
        return {"districts": {name: rings for name, (rings, _) in self.districts.items()}, "areas": [self.area]}

    def service(self):
        """The service that is asked for: the most special one."""
        return max((service for _, service in self.districts.values()), key=len)


def missed(site, answer, shares):
    """How many districts of the service asked for cover an eighth to a quarter, how many of them are missing, and the same of more."""
    got = {mapping.get("sourceId") for mapping in answer.iter("{urn:ietf:params:xml:ns:lost1}mapping")}
    wanted = [(name, share) for name, share in shares.items() if share >= LEAST + CLOSE and site.districts[name][1] == site.service()]
    few = [name for name, share in wanted if share < QUARTER]
    more = [name for name, share in wanted if share >= QUARTER]
    return len(few), len(set(few) - got), len(more), len(set(more) - got)


def of_kind(program, kind, seed):
    """The counts of a kind of map: districts that cover an eighth to a quarter, how many of them are missed, and the same of more."""
    dice = random.Random(zlib.crc32(f"{seed} {kind.__name__}".encode()))
    drawn = [Site(dice, kind, number) for number in range(AREAS)]
    words = ("--timeout", "30", "--area", "all", "--area-least", str(LEAST))
    with Server(program, 4, 1000) as server, Gateway([server.queries], *words, program=MEASURED) as running:
        server.desk().ask_all([*(line for site in drawn for line in site.lines()), COMMIT])
        answers = asked(running.port, [request(site.area, site.service()) for site in drawn])
    judged = overlays([site.given() for site in drawn])
    told = [missed(site, answer, shares[0]) for site, answer, shares in zip(drawn, answers, judged)]
    return [sum(counts) for counts in zip(*told)]


def missed_districts(program, seed=SEED):
    """areas over maps of nine kinds: which districts that cover an eighth are missed"""
    print(f"    seed {seed}, {AREAS} areas a kind; missed of the districts that cover 1/8 to 1/4, and of those that cover more:")
    wrong = []
    for kind in sites.KINDS:
        few, few_missed, more, more_missed = of_kind(program, kind, seed)
        print(f"    {few_missed} of {few}, {more_missed} of {more}: {kind.__doc__}", flush=True)
        allowed = MOST_MISSED * (few + more) if kind in OVERLAPPED else 0
        wrong += [f"too many are missed: {kind.__doc__}"] if few_missed + more_missed > allowed else []
    return wrong
