"""The areas of all mappings of a service: which of them hold a point, and which come near a place."""
from __future__ import annotations

import warnings
from typing import Any, Dict, Iterator, List, NamedTuple, Optional, Sequence, Tuple

import numpy
from shapely.errors import ShapelyDeprecationWarning
from shapely.geometry import box
from shapely.strtree import STRtree

from maptools.checking.areas import Tangle, simple_area, untangled
from maptools.checking.edges import Course, courses_of
from maptools.checking.loops import loops_of, turns_of
from maptools.checking.progress import Progress
from maptools.checking.rule import holds
from maptools.checking.subjects import Ring, Subject
from maptools.texts import Point

# How many rings are looked at together.
BATCH = 1000

warnings.filterwarnings("ignore", category=ShapelyDeprecationWarning)


class Piece(NamedTuple):
    """A polygon of a mapping: whose, its number in the mapping, and its ring as given.

    `area` is what the ring holds. `course` is that of a simple ring, `tangle` what any other ring is. `repeated` says how many
    of its positions repeat the one before, and `tips` where it runs out and back.
    """

    owner: int
    number: int
    ring: Ring
    area: Any
    course: Optional[Course]
    tangle: Optional[Tangle]
    repeated: int
    tips: List[Point]


def tips_in(open_ring: Any, is_tip: Any) -> List[Point]:
    """The tips of a ring that it comes by only once: the ways to its holes and back begin at the others."""
    tips = [(int(latitude), int(longitude)) for latitude, longitude in open_ring[is_tip]] if is_tip.any() else []
    return [tip for tip in tips if numpy.count_nonzero((open_ring == tip).all(axis=1)) == 1]


def pieces_of(rings: Sequence[Tuple[int, int, Ring]]) -> Iterator[Piece]:
    """The pieces of some rings, each with its owner and its number."""
    loops, repeated = loops_of([ring for _, _, ring in rings])
    turns = turns_of(loops)
    parts = zip(rings, loops.split(loops.at), courses_of(loops, turns.is_straight), repeated, loops.split(turns.is_tip))
    for (owner, number, ring), open_ring, course, times, is_tip in parts:
        area = simple_area(open_ring)
        tangle = untangled(open_ring) if area is None else None
        held = area if tangle is None else tangle.area
        yield Piece(owner, number, ring, held, course if tangle is None else None, tangle, int(times), tips_in(open_ring, is_tip))


class Layer:
    """The pieces of a service's mappings, to be found by where they are."""

    def __init__(self, service: str, subjects: Sequence[Subject], progress: Progress) -> None:
        self.service, self.subjects = service, subjects
        rings = [(owner, number, ring) for owner, subject in enumerate(subjects) for number, ring in enumerate(subject.rings, 1)]
        self.pieces: List[Piece] = []
        for begin in range(0, len(rings), BATCH):
            self.pieces.extend(pieces_of(rings[begin : begin + BATCH]))
            progress.tell(f"{service}: polygons", len(self.pieces), len(rings))
        self.of_owner: Dict[int, List[Piece]] = {}
        for piece in self.pieces:
            self.of_owner.setdefault(piece.owner, []).append(piece)
        self.of_area: Dict[int, int] = {id(piece.area): place for place, piece in enumerate(self.pieces)}
        self.tree = STRtree([piece.area for piece in self.pieces if not piece.area.is_empty])

    def near(self, place: Any) -> List[int]:
        """The pieces whose boxes meet that of a geometry."""
        return sorted(self.of_area[id(area)] for area in self.tree.query(place))

    def pieces_at(self, place: Any) -> List[int]:
        """The pieces that hold a place which is on no edge, as a geometry."""
        return [number for number in self.near(place) if self.pieces[number].area.contains(place)]

    def holders_at(self, point: Point) -> List[int]:
        """The mapping of each piece that holds a whole point, exactly."""
        latitude, longitude = point
        around = box(longitude - 1, latitude - 1, longitude + 1, latitude + 1)
        return [self.pieces[number].owner for number in self.near(around) if holds(self.pieces[number].ring, point)]

    def owners_at(self, point: Point) -> Tuple[int, ...]:
        """The mappings that hold a whole point, exactly."""
        return tuple(sorted(set(self.holders_at(point))))
