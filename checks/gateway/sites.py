"""Areas, each with a small map of its own around it: districts side by side, in strips, over another one, or with nothing between.

A place is in metres east and north of the centre of its area, and turned to degrees only where it is written. Maps are drawn
by the size of the area, which is the side of the square that is as large, so that many districts cover some eighths of it.
"""
import math
from typing import Callable, Dict, List, NamedTuple, Tuple

UNITS, METRES_A_DEGREE = 10_000_000, 111_195.0
SERVICE, SPECIAL = "urn:service:sos", "urn:service:sos.fire"
SHAPES = ("Circle", "Ellipse", "ArcBand", "Polygon")
MOST_CELLS = 12
Place = Tuple[float, float]


class District(NamedTuple):
    """The rings of a district in metres, and its service."""

    rings: List[List[Place]]
    service: str = SERVICE


class Drawn(NamedTuple):
    """An area as `areas.request` takes it, its square metres, how far it reaches, and a place in it at random."""

    area: Dict[str, object]
    measure: float
    reach: float
    place: Callable[[], Place]

    def size(self):
        """The side of the square that is as large."""
        return math.sqrt(self.measure)


def around(far, turn):
    """The place in a direction, clockwise from north."""
    return far * math.sin(turn), far * math.cos(turn)


def written(centre, place):
    """A place in degrees, to 7 digits."""
    across = METRES_A_DEGREE * math.cos(math.radians(centre[0]))
    return [round(centre[0] + place[1] / METRES_A_DEGREE, 7), round(centre[1] + place[0] / across, 7)]


def ring_of(centre, places):
    """A ring in whole units, closed."""
    ring = [[round(degrees * UNITS) for degrees in written(centre, place)] for place in places]
    return [*ring, ring[0]]


def ellipse(dice, area):
    """An ellipse at random."""
    minor = round(area["outer"] * dice.uniform(0.25, 1), 2) if area["kind"] == "Ellipse" else area["outer"]
    area |= {"minor": minor, "start": round(dice.uniform(0, 360), 2) if area["kind"] == "Ellipse" else 0.0}
    turn = math.radians(area["start"])

    def place():
        far, angle = math.sqrt(dice.random()), dice.uniform(0, 2 * math.pi)
        along, across = area["outer"] * far * math.cos(angle), minor * far * math.sin(angle)
        return around(math.hypot(along, across), turn + math.atan2(across, along))

    return Drawn(area, math.pi * area["outer"] * minor, area["outer"], place)


def band(dice, area):
    """An arc band at random, from a sector to a ring."""
    opening = dice.choice((round(dice.uniform(30, 350), 2), 120.0, 360.0))
    inner, start = round(area["outer"] * dice.uniform(0, 0.8), 2), round(dice.uniform(0, 360), 2)
    area |= {"inner": inner, "start": start, "opening": opening}

    def place():
        far = math.sqrt(dice.uniform(inner**2, area["outer"] ** 2))
        return around(far, math.radians(start + opening * dice.random()))

    return Drawn(area, math.radians(opening) / 2 * (area["outer"] ** 2 - inner**2), area["outer"], place)


def star(dice, area):
    """A polygon of 3 to 9 corners around its centre, at random distances; no two are half a turn apart."""
    count = dice.randint(4, 9)
    turns = [2 * math.pi * (number + 0.8 * dice.random()) / count for number in range(count)]
    corners = [around(area["outer"] * dice.uniform(0.4, 1), turn) for turn in turns]
    ring = [written(area["centre"], corner) for corner in corners]
    area |= {"ring": [*ring, ring[0]]}
    pairs = list(zip(corners, corners[1:] + corners[:1]))
    doubled = [abs(a * d - b * c) for (a, b), (c, d) in pairs]

    def place():
        (a, b), (c, d) = dice.choices(pairs, doubled)[0]
        far, part = math.sqrt(dice.random()), dice.random()
        return far * (a + part * (c - a)), far * (b + part * (d - b))

    return Drawn(area, sum(doubled) / 2, area["outer"], place)


MAKERS = {"Circle": ellipse, "Ellipse": ellipse, "ArcBand": band, "Polygon": star}


def drawn(dice, centre):
    """An area at random around a centre."""
    radius = round(dice.choice((300, 1500, 4000)) * dice.uniform(0.5, 1), 2)
    kind = dice.choice(SHAPES)
    area = {"kind": kind, "centre": centre, "outer": radius, "inner": 0.0, "minor": radius, "start": 0.0, "opening": 360.0}
    return MAKERS[kind](dice, area)


def turned(places, middle, turn):
    """Places that are turned around the origin, and moved to a middle."""
    sine, cosine = math.sin(turn), math.cos(turn)
    return [(middle[0] + x * cosine - y * sine, middle[1] + x * sine + y * cosine) for x, y in places]


def rectangle(dice, middle, width, length):
    """A rectangle at random around a middle."""
    corners = [(-width / 2, -length / 2), (width / 2, -length / 2), (width / 2, length / 2), (-width / 2, length / 2)]
    return turned(corners, middle, dice.uniform(0, 2 * math.pi))


def compact(dice, drawing):
    """A rectangle at most twice as long as wide, which covers an eighth to a third of an area where it lies wholly in it."""
    measure, ratio = drawing.measure * dice.uniform(0.13, 0.33), dice.uniform(1, 2)
    return rectangle(dice, drawing.place(), math.sqrt(measure / ratio), math.sqrt(measure * ratio))


def thin(dice, drawing):
    """A strip right across an area."""
    return rectangle(dice, drawing.place(), drawing.size() * dice.uniform(0.1, 0.25), 4 * drawing.reach)


def base(drawing):
    """A district that covers all of an area."""
    far = 4 * drawing.reach
    return {"base": District([[(-far, -far), (far, -far), (far, far), (-far, far)]])}


def cells(dice, side, count, moved):
    """The quadrangles of a grid, turned at random, whose corners are moved by a part of a side; by row and column."""
    turn, half = dice.uniform(0, 2 * math.pi), side * count / 2
    corners = {
        (row, column): (side * (column + moved * dice.uniform(-1, 1)) - half, side * (row + moved * dice.uniform(-1, 1)) - half)
        for row in range(count + 1) for column in range(count + 1)
    }  # fmt: skip
    steps = ((0, 0), (0, 1), (1, 1), (1, 0))
    return {
        (row, column): turned([corners[row + up, column + right] for up, right in steps], (0, 0), turn)
        for row in range(count) for column in range(count)
    }  # fmt: skip


def side_by_side(dice, drawing):
    """compact districts side by side"""
    side = max(drawing.size() * dice.uniform(0.4, 0.9), 2.4 * drawing.reach / MOST_CELLS)
    found = cells(dice, side, math.ceil(2.4 * drawing.reach / side) + 1, 0.3)
    return {f"d{row}-{column}": District([ring]) for (row, column), ring in found.items()}


def among_small(dice, drawing):
    """one compact district among small ones"""
    side = max(drawing.size() * 0.13, 2.4 * drawing.reach / MOST_CELLS)
    found = cells(dice, side, math.ceil(2.4 * drawing.reach / side) + 1, 0.2)
    middle = drawing.place()
    wanted = math.ceil(dice.uniform(0.14, 0.3) * drawing.measure / side**2)
    near = sorted(found, key=lambda one: math.dist(middle, [sum(part) / 4 for part in zip(*found[one])]))[:wanted]
    small = {f"d{row}-{column}": District([ring]) for (row, column), ring in found.items() if (row, column) not in near}
    return {**small, "large": District([found[one] for one in near])}


def strips_side_by_side(dice, drawing):
    """thin strips side by side"""
    turn, left, found = dice.uniform(0, 2 * math.pi), -1.2 * drawing.reach, {}
    while left < 1.2 * drawing.reach:
        width, far = max(drawing.size() * dice.uniform(0.08, 0.3), 0.08 * drawing.reach), 2 * drawing.reach
        corners = [(left, -far), (left + width, -far), (left + width, far), (left, far)]
        found[f"d{len(found)}"] = District([turned(corners, (0, 0), turn)])
        left += width
    return found


def inside_another(dice, drawing):
    """compact districts inside another"""
    return {**base(drawing), **{f"d{number}": District([compact(dice, drawing)]) for number in range(3)}}


def strips_inside_another(dice, drawing):
    """thin strips across another"""
    return {**base(drawing), **{f"d{number}": District([thin(dice, drawing)]) for number in range(2)}}


def special(dice, drawing):
    """compact districts of a more special service"""
    return {**base(drawing), **{f"d{number}": District([compact(dice, drawing)], SPECIAL) for number in range(2)}}


def strips_special(dice, drawing):
    """thin strips of a more special service"""
    return {**base(drawing), "d0": District([thin(dice, drawing)], SPECIAL)}


def unserved(dice, drawing):
    """compact districts with nothing between them"""
    return {f"d{number}": District([compact(dice, drawing)]) for number in range(2)}


def strips_unserved(dice, drawing):
    """thin strips with nothing between them"""
    return {"d0": District([thin(dice, drawing)])}


KINDS = [
    side_by_side, among_small, unserved, special, inside_another,
    strips_side_by_side, strips_unserved, strips_special, strips_inside_another,
]  # fmt: skip
