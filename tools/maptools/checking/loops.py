"""Many rings in arrays, one behind another: their turns, their tips, and which way they run.

All but areas is exact, in whole units: a product of two differences fits into 64 bits.
"""
from __future__ import annotations

from typing import Any, List, NamedTuple, Sequence, Tuple

import numpy

# The tangent of the angle below which a tip that runs out and back is a spike: a quarter of a degree.
NEEDLE = 0.00436

Array = Any


class Loops(NamedTuple):
    """Rings without their last positions and without repeated ones.

    `at` has the positions, `ring` the number of each one's ring, `begin` where each ring begins, with the end of all.
    """

    at: Array
    ring: Array
    begin: Array

    def counts(self) -> Array:
        """How many positions each ring has."""
        return numpy.diff(self.begin)

    def following(self) -> Array:
        """Where the next position of each one's ring stands."""
        result = numpy.arange(1, len(self.at) + 1)
        is_filled = self.counts() > 0
        result[self.begin[1:][is_filled] - 1] = self.begin[:-1][is_filled]
        return result

    def before(self) -> Array:
        """Where the position before each one stands."""
        result = numpy.arange(-1, len(self.at) - 1)
        is_filled = self.counts() > 0
        result[self.begin[:-1][is_filled]] = self.begin[1:][is_filled] - 1
        return result

    def split(self, values: Array) -> List[Array]:
        """What positions have, by ring."""
        return numpy.split(values, self.begin[1:-1])

    def ordered(self, order: Array) -> Loops:
        """The same rings with their positions in another order."""
        return self._replace(at=self.at[order])


class Turns(NamedTuple):
    """What each position is in its ring: a way straight on, or a tip from which the ring runs back."""

    is_straight: Array
    is_tip: Array


def begins_of(counts: Sequence[int]) -> Array:
    """Where each of some groups begins, with the end of all."""
    return numpy.concatenate(([0], numpy.cumsum(counts, dtype=numpy.int64)))


def loops_of(rings: Sequence[Array]) -> Tuple[Loops, Array]:
    """Closed rings, at least one, as loops, and how many positions of each repeat the one before."""
    at = numpy.concatenate([ring[:-1] for ring in rings]).astype(numpy.int64)
    counts = numpy.array([len(ring) - 1 for ring in rings])
    ring = numpy.repeat(numpy.arange(len(rings)), counts)
    is_new = (at != at[Loops(at, ring, begins_of(counts)).following()]).any(axis=1)
    repeated = numpy.bincount(ring[~is_new], minlength=len(rings))
    return Loops(at[is_new], ring[is_new], begins_of(counts - repeated)), repeated


def turns_of(loops: Loops) -> Turns:
    """What each position of loops is."""
    step = loops.at[loops.following()] - loops.at
    back = step[loops.before()]
    across, along = back[:, 0] * step[:, 1], back[:, 1] * step[:, 0]
    ahead = back[:, 0].astype(float) * step[:, 0] + back[:, 1].astype(float) * step[:, 1]
    is_needle = numpy.abs(across.astype(float) - along) <= -ahead * NEEDLE
    return Turns((across == along) & (ahead > 0), is_needle & (ahead < 0))


def double_areas(loops: Loops) -> Array:
    """Twice the area of each ring, positive where it runs against the clock."""
    if not len(loops.at):
        return numpy.zeros(len(loops.counts()))
    first = loops.at[numpy.minimum(loops.begin[:-1], len(loops.at) - 1)]
    near = (loops.at - first[loops.ring]).astype(float)
    then = near[loops.following()]
    return numpy.bincount(loops.ring, near[:, 1] * then[:, 0] - then[:, 1] * near[:, 0], minlength=len(loops.counts()))


def begun_at_turns(loops: Loops, is_straight: Array) -> Array:
    """The order of positions in which each ring begins at one that is not straight."""
    turns = numpy.flatnonzero(~is_straight)
    first = numpy.append(turns, len(loops.at))[numpy.searchsorted(turns, loops.begin[:-1])]
    shift = numpy.where(first < loops.begin[1:], first - loops.begin[:-1], 0)[loops.ring]
    begin = loops.begin[loops.ring]
    return begin + (numpy.arange(len(loops.at)) - begin + shift) % loops.counts()[loops.ring]


def mirrored(loops: Loops, is_mirrored: Array) -> Array:
    """The order of positions in which the rings that are marked run the other way."""
    place = numpy.arange(len(loops.at))
    other_way = loops.begin[loops.ring] + loops.begin[loops.ring + 1] - 1 - place
    return numpy.where(is_mirrored[loops.ring], other_way, place)
