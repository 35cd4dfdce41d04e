#!/usr/bin/python3
"""Reads sites of districts and areas as JSON, and writes for each area of a site the share of it that each district of the site
covers, by shapely's overlay.

It shares no code with the gateway: circles and arcs are drawn in the tangent plane of the ellipsoid, with a chord for each
quarter of a degree, which over some kilometres is within a ten-thousandth.
"""
import json
import math
import sys

from shapely.geometry import Polygon
from shapely.ops import unary_union

UNITS = 10_000_000
AXIS, SQUARED = 6_378_137.0, 0.00669437999014
STEPS = 1440


def spot(centre, metres, turn):
    """The place in a direction, clockwise from north, as longitude and latitude."""
    latitude = math.radians(centre[0])
    flat = 1 - SQUARED * math.sin(latitude) ** 2
    north, east = AXIS * (1 - SQUARED) / flat**1.5, AXIS / math.sqrt(flat) * math.cos(latitude)
    return (
        centre[1] + math.degrees(metres * math.sin(turn) / east),
        centre[0] + math.degrees(metres * math.cos(turn) / north),
    )


def ellipse(area):
    """An ellipse, or a circle."""
    spots = []
    for step in range(STEPS):
        angle = 2 * math.pi * step / STEPS
        along, across = area["outer"] * math.cos(angle), area["minor"] * math.sin(angle)
        spots.append(spot(area["centre"], math.hypot(along, across), math.radians(area["start"]) + math.atan2(across, along)))
    return Polygon(spots)


def band(area):
    """An arc band."""
    turns = [math.radians(area["start"] + area["opening"] * step / STEPS) for step in range(STEPS + 1)]
    outer, inner = ([spot(area["centre"], area[name], turn) for turn in turns] for name in ("outer", "inner"))
    if area["opening"] == 360:
        return Polygon(outer).difference(Polygon(inner).buffer(0))
    return Polygon([*outer, *reversed(inner)]).buffer(0)


def shape_of(area):
    """An area as a shape."""
    if area["kind"] == "Polygon":
        return Polygon([(east, north) for north, east in area["ring"]])
    return band(area) if area["kind"] == "ArcBand" else ellipse(area)


def shares_in(site):
    """For each area of a site, by name the share that each district covers, where it covers any."""
    districts = {
        name: unary_union([Polygon([(east / UNITS, north / UNITS) for north, east in ring]) for ring in rings])
        for name, rings in site["districts"].items()
    }
    told = []
    for area in site["areas"]:
        shape = shape_of(area)
        shares = {name: shape.intersection(district).area / shape.area for name, district in districts.items()}
        told.append({name: share for name, share in shares.items() if share > 0})
    return told


def main():
    json.dump([shares_in(site) for site in json.load(sys.stdin)], sys.stdout)


if __name__ == "__main__":
    main()
