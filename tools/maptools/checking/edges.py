"""Which edges areas have between them, and which are left, exactly."""
from __future__ import annotations

from typing import Any, Iterator, NamedTuple, Sequence, Tuple

import numpy

from maptools.checking.loops import Loops, begins_of, begun_at_turns, double_areas, mirrored

# Odd numbers that mix the bits of positions into those of an edge.
MIX = numpy.array([0x9E3779B97F4A7C15, 0xC2B2AE3D27D4EB4F, 0x165667B19E3779F9], dtype=numpy.uint64)
HALF = numpy.uint64(32)
SOUTHMOST, WESTMOST = 900_000_000, 1_800_000_000

Array = Any


class Course(NamedTuple):
    """A ring against the clock, begun at a turn: its positions, each as one number, and which the ring runs straight through.

    `signature` is a number that is the same wherever the ring begins and whichever way it is given.
    """

    codes: Array
    is_straight: Array
    signature: int


def codes_of(at: Array) -> Array:
    """Each position as one number."""
    return ((at[:, 0] + SOUTHMOST).astype(numpy.uint64) << HALF) | (at[:, 1] + WESTMOST).astype(numpy.uint64)


def positions_of(codes: Array) -> Array:
    """The positions of such numbers."""
    latitude, longitude = codes >> HALF, codes & numpy.uint64(0xFFFFFFFF)
    return numpy.stack([latitude.astype(numpy.int64) - SOUTHMOST, longitude.astype(numpy.int64) - WESTMOST], axis=1)


def courses_of(loops: Loops, straight: Array) -> Iterator[Course]:
    """The course of each ring; straight are the positions that it runs straight through."""
    order = mirrored(loops, double_areas(loops) < 0)
    order = order[begun_at_turns(loops, straight[order])]
    codes = codes_of(loops.at[order])
    sums = numpy.append(numpy.uint64(0), numpy.cumsum(keys_of(codes, codes[loops.following()]), dtype=numpy.uint64))
    signatures = sums[loops.begin[1:]] - sums[loops.begin[:-1]]
    return map(Course, loops.split(codes), loops.split(straight[order]), map(int, signatures))


def keys_of(one: Array, other: Array) -> Array:
    """A number for each edge that is the same in both directions; two edges share one by chance only."""
    low, high = numpy.minimum(one, other), numpy.maximum(one, other)
    key = (low * MIX[0]) ^ ((high ^ (high >> numpy.uint64(29))) * MIX[1])
    return (key ^ (key >> HALF)) * MIX[2]


def unpaired(one: Array, other: Array) -> Array:
    """Which edges are not one of just two that have the same ends, one in each direction.

    Edges that share a key by chance count as unpaired.
    """
    result = numpy.ones(len(one), dtype=bool)
    if not len(one):
        return result
    key = keys_of(one, other)
    order = numpy.argsort(key)
    is_same = key[order][1:] == key[order][:-1]
    del key
    is_pair = is_same.copy()
    is_pair[1:] &= ~is_same[:-1]
    is_pair[:-1] &= ~is_same[1:]
    first, second = order[:-1][is_pair], order[1:][is_pair]
    is_met = (one[first] == other[second]) & (other[first] == one[second])
    result[first[is_met]] = result[second[is_met]] = False
    return result


def joined_straight(begin: Array, is_left: Array, is_straight: Array) -> Tuple[Array, Array]:
    """Where edges that are left begin, and where the last edges of those begin that run straight on from them."""
    goes_on = is_left & is_straight
    goes_on[1:] &= is_left[:-1]
    goes_on[begin[:-1][begin[:-1] < len(goes_on)]] = False
    left = numpy.flatnonzero(is_left)
    heads = numpy.flatnonzero(~goes_on[left])
    return left[heads], left[numpy.append(heads[1:], len(left)) - 1] if len(heads) else heads


def leftover(courses: Sequence[Course]) -> Tuple[Array, Array]:
    """The ends of the edges that areas do not have between them.

    Edges are compared as they are given, and those that are left again with straight ones joined, since a position on an
    edge between its ends changes nothing.
    """
    if not courses:
        return numpy.zeros((0, 2), dtype=numpy.int64), numpy.zeros((0, 2), dtype=numpy.int64)
    begin = begins_of([len(course.codes) for course in courses])
    one = numpy.concatenate([course.codes for course in courses])
    other = one[Loops(one, one, begin).following()]
    first, last = joined_straight(begin, unpaired(one, other), numpy.concatenate([course.is_straight for course in courses]))
    one, other = one[first], other[last]
    is_left = unpaired(one, other)
    return positions_of(one[is_left]), positions_of(other[is_left])
