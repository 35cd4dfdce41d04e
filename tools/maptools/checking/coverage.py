"""What a service's areas leave open between them, and what they hold twice.

Most edges lie between two areas: each of the two names the same ends. What is left of the edges then says all: a place is held
by as many areas as at its neighbours, but across an edge that is left. So only these edges are cut at their crossings, and
only the faces between them are looked at.
"""
from __future__ import annotations

from collections import defaultdict
from typing import Any, Dict, FrozenSet, Iterator, List, NamedTuple, Set, Tuple

import numpy
from shapely.geometry import LineString
from shapely.ops import unary_union
from shapely.prepared import prep

from maptools.checking.areas import faces_of, lines_between, polygons_in, rings_in
from maptools.checking.edges import leftover
from maptools.checking.layers import Layer

# How near an edge is to a face for it to be beside it, and how long it is there, in units.
BESIDE, LEAST_EDGE = 0.01, 0.5
# How many edges of a place are looked at together.
STRETCH = 32

Owners = FrozenSet[int]


class Coverage(NamedTuple):
    """The faces that no area holds though areas are around them, those that several mappings hold, and what any area holds."""

    open_faces: List[Any]
    shared: Dict[Owners, List[Any]]
    held: List[Any]


def simple_edges(layer: Layer, left_out: Set[int]) -> Tuple[Any, Any]:
    """The edges that simple areas do not have between them; some pieces count as not there."""
    return leftover([piece.course for number, piece in enumerate(layer.pieces) if piece.course is not None and number not in left_out])


def tangled_edges(layer: Layer) -> Tuple[Any, Any]:
    """The edges of the areas of all rings that are not simple."""
    rings = [ring for piece in layer.pieces if piece.tangle is not None for ring in rings_in(piece.area)]
    if not rings:
        return numpy.zeros((0, 2)), numpy.zeros((0, 2))
    return numpy.concatenate([ring[:-1] for ring in rings]), numpy.concatenate([ring[1:] for ring in rings])


def lonely(layer: Layer, left_out: Set[int]) -> Set[int]:
    """The simple pieces whose boxes meet no other piece's: they share nothing and enclose nothing."""
    result = set()
    for number, piece in enumerate(layer.pieces):
        if piece.course is not None and number not in left_out and not set(layer.near(piece.area)) - left_out - {number}:
            result.add(number)
    return result


def decomposed(layer: Layer, face: Any, left_out: Set[int]) -> Iterator[Tuple[Owners, Any]]:
    """The parts of a face that different mappings hold, each with its mappings."""
    near = [number for number in layer.near(face) if number not in left_out and layer.pieces[number].area.intersects(face)]
    lines = [face.boundary, *(layer.pieces[number].area.boundary.intersection(face) for number in near)]
    for part in faces_of(lines):
        middle = part.representative_point()
        if face.contains(middle):
            yield frozenset(layer.pieces[number].owner for number in near if layer.pieces[number].area.contains(middle)), part


def cut_out(layer: Layer, face: Any, alone: Set[int]) -> List[Any]:
    """A face without the lonely pieces in it."""
    inside = [layer.pieces[number].area for number in layer.near(face) if number in alone]
    return list(polygons_in(face.difference(unary_union(inside)))) if inside else [face]


def coverage_of(layer: Layer, left_out: Set[int]) -> Coverage:
    """What the areas leave open, hold twice and hold in all; some pieces, which are others again, count as not there."""
    alone = lonely(layer, left_out)
    ends = [simple_edges(layer, left_out | alone), tangled_edges(layer)]
    start, end = (numpy.concatenate([pair[side] for pair in ends]) for side in (0, 1))
    result = Coverage([], defaultdict(list), [layer.pieces[number].area for number in alone])
    for face in faces_of(lines_between(start, end)) if len(start) else []:
        for part in cut_out(layer, face, alone):
            holders = [number for number in layer.pieces_at(part.representative_point()) if number not in left_out]
            if not holders:
                result.open_faces.append(part)
                continue
            result.held.append(part)
            if len(holders) > 1:
                for owners, piece in decomposed(layer, part, left_out):
                    result.shared[owners].append(piece)
    return result


def parts_of(faces: List[Any]) -> List[Any]:
    """Faces with those side by side as one."""
    return list(polygons_in(unary_union(faces))) if faces else []


def stretches_of(place: Any) -> Iterator[Any]:
    """The boundary of a place, in stretches of some edges: the box around a long one would be near to all areas of a map."""
    for line in getattr(place.boundary, "geoms", [place.boundary]):
        positions = list(line.coords)
        for begin in range(0, len(positions) - 1, STRETCH):
            yield LineString(positions[begin : begin + STRETCH + 1])


def owners_beside(layer: Layer, place: Any) -> Tuple[int, ...]:
    """The mappings whose areas have an edge with a place, and more than a corner."""
    lengths: Dict[int, float] = defaultdict(float)
    for stretch in stretches_of(place):
        strip = stretch.buffer(BESIDE, resolution=1)
        is_near = prep(strip).intersects
        for number in layer.near(strip):
            if lengths[number] <= LEAST_EDGE and is_near(layer.pieces[number].area):
                lengths[number] += strip.intersection(layer.pieces[number].area.boundary).length
    return tuple(sorted({layer.pieces[number].owner for number, length in lengths.items() if length > LEAST_EDGE}))
