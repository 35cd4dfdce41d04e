"""Mistakes in single rings."""
from __future__ import annotations

import math
from typing import Iterator, List

from maptools.checking.areas import polygons_in
from maptools.checking.findings import ERROR, NOTE, WARNING, Finding
from maptools.checking.geometries import dot_of, in_degrees
from maptools.checking.layers import Layer, Piece
from maptools.checking.metres import METRES, RADIANS, SLIVER, area_of, area_text, greatest_width, is_sliver, width_text
from maptools.checking.rule import holds, whole_point
from maptools.texts import Point
from maptools.units import text_of

# What may hold no whole point, in square units.
TINY = 4.0
MOST_SHOWN = 3


def places_text(points: List[Point]) -> str:
    """Some positions as text."""
    shown = ", ".join(f"({text_of(point)})" for point in points[:MOST_SHOWN])
    return shown + (f" and {len(points) - MOST_SHOWN} more" if len(points) > MOST_SHOWN else "")


def holds_nothing(piece: Piece) -> bool:
    """Whether no caller can be in a polygon."""
    parts = list(polygons_in(piece.area))
    if sum(part.area for part in parts) > TINY:
        return False
    return not any(whole_point(part, lambda point: holds(piece.ring, point)) for part in parts)


def ring_findings(layer: Layer, piece: Piece) -> Iterator[Finding]:
    """What is wrong with the ring of a piece."""
    subject = layer.subjects[piece.owner]
    name = f"polygon {piece.number} of {subject.name}"

    def finding(kind: str, severity: str, text: str, point: Point) -> Finding:
        return Finding(kind, severity, layer.service, (subject.identity,), f"{name} {text}", point, geometry=dot_of(point))

    first = int(piece.ring[0][0]), int(piece.ring[0][1])
    if holds_nothing(piece):
        is_twice = piece.tangle is not None and piece.tangle.is_repeated
        text = "is drawn twice, which cancels it: it holds nothing" if is_twice else "has no area: it holds nothing"
        yield finding("ring-twice" if is_twice else "no-area", ERROR, text, first)
        return
    if piece.tangle is not None and piece.tangle.is_repeated:
        yield finding("ring-twice", ERROR, "runs along some edges twice in the same direction, which cancels them", first)
    crossings = [(round(y), round(x)) for x, y in piece.tangle.crossings] if piece.tangle is not None else []
    if crossings:
        times = "" if len(crossings) == 1 else f" {len(crossings)} times,"
        text = f"crosses itself{times} at {places_text(crossings)}: parts of it may be left out"
        yield finding("self-crossing", ERROR, text, crossings[0])
    if piece.tips:
        yield finding("spike", WARNING, f"has a spike at {places_text(piece.tips)}", piece.tips[0])
    if piece.repeated:
        positions = "a position" if piece.repeated == 1 else f"{piece.repeated} positions"
        yield finding("repeated-position", NOTE, f"repeats {positions}", first)


def is_narrow(piece: Piece) -> bool:
    """Whether a polygon may be a sliver: the greatest circle in it is at least as wide as twice its area by its edge's length."""
    least = METRES * math.cos(int(piece.ring[0][0]) * RADIANS) / 2
    return 2 * piece.area.area * least < SLIVER * piece.area.length


def sliver_findings(layer: Layer, piece: Piece, tolerance: float) -> Iterator[Finding]:
    """A polygon that is a sliver by itself."""
    widths = [(greatest_width(part), part) for part in polygons_in(piece.area)]
    width, part = max(widths, key=lambda one: one[0])
    if width <= tolerance or not all(is_sliver(polygon, one) for one, polygon in widths):
        return
    subject, point = layer.subjects[piece.owner], whole_point(part, lambda place: holds(piece.ring, place))
    area = sum(area_of(polygon) for _, polygon in widths)
    text = f"polygon {piece.number} of {subject.name} is a sliver, {area_text(area)}, at most {width_text(width)} wide"
    geometry = in_degrees([polygon for _, polygon in widths])
    yield Finding("sliver", WARNING, layer.service, (subject.identity,), text, point, None, area, width, geometry)


def all_ring_findings(layer: Layer, tolerance: float) -> Iterator[Finding]:
    """What is wrong with all rings."""
    for piece in layer.pieces:
        is_small = piece.area.area <= TINY
        if piece.tangle is not None or piece.tips or piece.repeated or is_small:
            yield from ring_findings(layer, piece)
        if not is_small and is_narrow(piece):
            yield from sliver_findings(layer, piece, tolerance)
