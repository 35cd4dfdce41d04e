"""Draws boundaries and points as a picture (SVG)."""
from __future__ import annotations

import colorsys
import math
from itertools import groupby
from typing import Any, Dict, List, NamedTuple, Optional, Tuple
from xml.sax.saxutils import escape

from maptools.flat_rings import Ring
from maptools.places import Area, Edge, Finding, belonging
from maptools.rings import GREATEST_LATITUDE, GREATEST_LONGITUDE
from maptools.texts import Point
from maptools.units import degrees_of

WIDTH, MARGIN, TALLEST = 4_000, 120, 2_800
LETTER, LINE = 52, 76
MOST_LISTED = 36
# Among more areas than these, the edges of those that are smaller than two dashes are not drawn.
MOST_WITH_DOTS, SHORTEST_DASHED = 2_000, 56
GREEN, RED, INK = "#1d6b3c", "#b02a2a", "#222"
STYLE = (
    ".f path{stroke:none;fill-rule:evenodd;fill-opacity:.7}"
    ".s,.d{fill:none;stroke-width:5;pointer-events:none}.d{stroke-dasharray:16 12}"
    "@supports(vector-effect:non-scaling-stroke){.s,.d{vector-effect:non-scaling-stroke;stroke-width:1.4}.d{stroke-dasharray:4 3}}"
    f"text{{font:{LETTER}px Helvetica,Arial,sans-serif;fill:{INK}}}"
    ".n{text-anchor:middle;stroke:#fff;stroke-width:14;paint-order:stroke}"
)


# The south-west and the north-east corner.
Box = Tuple[Point, Point]


class Frame(NamedTuple):
    """Where the map is in the picture: its north-west corner in units, and how many units a step of the picture takes."""

    north: int
    west: int
    latitude_step: float
    longitude_step: float
    width: int
    height: int

    def place(self, point: Point) -> Tuple[int, int]:
        """Where a point is drawn."""
        across = (point[1] - self.west) / self.longitude_step
        down = (self.north - point[0]) / self.latitude_step
        return MARGIN + round(across), MARGIN + LINE + round(down)

    def line(self, polygon: Ring) -> List[Tuple[int, int]]:
        """Where the points of a flat polygon are drawn."""
        across = [MARGIN + round((longitude - self.west) / self.longitude_step) for longitude in polygon[1::2]]
        down = [MARGIN + LINE + round((self.north - latitude) / self.latitude_step) for latitude in polygon[0::2]]
        return list(zip(across, down))

    def corners(self, area: Area) -> Tuple[int, int, int, int]:
        """Where the box of an area is drawn, as far as it is in the frame: left, top, right and bottom."""
        (left, bottom), (right, top) = self.place(area.low), self.place(area.high)
        x, y = MARGIN, MARGIN + LINE
        return max(left, x), max(top, y), min(right, x + self.width), min(bottom, y + self.height)

    def has(self, x: int, y: int) -> bool:
        """Whether a place of the picture is in the frame."""
        return MARGIN <= x <= MARGIN + self.width and MARGIN + LINE <= y <= MARGIN + LINE + self.height


def frame_around(areas: List[Area], findings: List[Finding]) -> Frame:
    """A frame around all that is drawn, with some room."""
    corners = [corner for area in areas for corner in (area.low, area.high)] + [finding.point for finding in findings]
    corners = corners or [(-900_000_000, -1_800_000_000), (900_000_000, 1_800_000_000)]
    (south, north), (west, east) = ((min(axis), max(axis)) for axis in zip(*corners))
    room = max((north - south) // 40, (east - west) // 40, 100)
    south, north = max(south - room, -GREATEST_LATITUDE), min(north + room, GREATEST_LATITUDE)
    west, east = max(west - room, -GREATEST_LONGITUDE), min(east + room, GREATEST_LONGITUDE)
    return frame_of((south, west), (north, east))


def frame_of(low: Point, high: Point) -> Frame:
    """A frame of a box; a degree of longitude is as wide as in its middle."""
    (south, west), (north, east) = low, high
    narrowing = max(0.2, math.cos(math.radians((north + south) / 2e7)))
    step = max((east - west) * narrowing / (WIDTH - 2 * MARGIN), (north - south) / TALLEST)
    width, height = (east - west) * narrowing / step, (north - south) / step
    return Frame(north, west, step, step / narrowing, math.ceil(width), math.ceil(height))


def step(across: int, down: int) -> str:
    """One step of a path; a minus sign separates as well as a space."""
    return f"{across}{'' if down < 0 else ' '}{down}"


def path_of(lines: List[List[Tuple[int, int]]]) -> str:
    """Lines through places as a path of small steps; a line that is drawn as one place is left out."""
    text, at = "", (0, 0)
    for line in lines:
        places = [place for place, before in zip(line, [None, *line]) if place != before]
        if len(places) < 2:
            continue
        for separator, place in zip("m" + " " * len(places), places):
            move = step(place[0] - at[0], place[1] - at[1])
            text += move if separator == " " and move[0] == "-" else separator + move
            at = place
    return text


def chains(edges: List[Edge]) -> List[List[Point]]:
    """Edges that follow one another, joined to lines."""
    result: List[List[Point]] = []
    for a, b in edges:
        if result and result[-1][-1] == a:
            result[-1].append(b)
        else:
            result.append([a, b])
    return result


def hex_color(number: int, lightness: float, saturation: float) -> str:
    """A color for the mapping of a number; those of numbers that follow one another differ most."""
    parts = colorsys.hls_to_rgb(number * 0.381966 % 1, lightness, saturation)
    return "#" + "".join(f"{round(part * 255):02x}" for part in parts)


def fill_color(number: int) -> str:
    """The color of an area."""
    return hex_color(number, (0.82, 0.72, 0.88)[number % 3], 0.65)


def line_color(number: int) -> str:
    """The color of the edges of an area."""
    return hex_color(number, (0.3, 0.22, 0.36)[number % 3], 0.75)


def is_xml(letter: str) -> bool:
    """Whether XML has a character."""
    return " " <= letter < "\ud800" or "\udfff" < letter < "\ufffe" or letter > "\uffff"


def safe(text: str) -> str:
    """A text as XML; a question mark stands for each character that XML does not have."""
    return escape("".join(letter if is_xml(letter) else "?" for letter in text))


def title_of(mapping: Dict[str, Any]) -> str:
    """The identity and the service of a mapping."""
    return f"{mapping['source']} {mapping['sourceId']} ({mapping['service'].split(':')[-1]})"


def text_at(x: int, y: int, words: str, attributes: str = "") -> str:
    """Words in the picture."""
    return f"<text x='{x}' y='{y}'{attributes}>{safe(words)}</text>"


def fills(areas: List[Area], numbers: Dict[int, int], frame: Frame) -> List[str]:
    """The areas, those of one mapping together with its title."""
    parts = ["<g class='f'>"]
    for _, group in groupby(areas, key=lambda area: id(area.mapping)):
        own = list(group)
        paths = "".join(f"<path d='{path_of([frame.line(area.polygon)])}'/>" for area in own)
        mapping = own[0].mapping
        parts.append(f"<g fill='{fill_color(numbers[id(mapping)])}'><title>{safe(title_of(mapping))}</title>{paths}</g>")
    return parts + ["</g>"]


def edge_path(edges: List[Edge], frame: Frame, style: str, color: str) -> List[str]:
    """Edges of one kind as a path; none where there are none."""
    path = path_of([[frame.place(point) for point in chain] for chain in chains(edges)])
    return [f"<path class='{style}' stroke='{color}' d='{path}'/>"] if path else []


def is_dot(area: Area, frame: Frame) -> bool:
    """Whether an area is too small to show whether its edges are dashed."""
    left, top, right, bottom = frame.corners(area)
    return max(right - left, bottom - top) < SHORTEST_DASHED


def edge_paths(areas: List[Area], numbers: Dict[int, int], frame: Frame) -> List[str]:
    """All edges: those that do not belong first, so that the edge of a neighbour lies over them.

    Among very many areas the small ones have none: their fills show where they end.
    """
    dashed, whole = [], []
    if len(areas) > MOST_WITH_DOTS:
        areas = [area for area in areas if not is_dot(area, frame)]
    for _, group in groupby(areas, key=lambda area: id(area.mapping)):
        own = list(group)
        color = line_color(numbers[id(own[0].mapping)])
        edges = [edge for area in own for edge in belonging(area.ring)]
        dashed += edge_path([edge for edge, belongs in edges if not belongs], frame, "d", color)
        whole += edge_path([edge for edge, belongs in edges if belongs], frame, "s", color)
    return dashed + whole


def names(areas: List[Area], frame: Frame) -> List[str]:
    """The sourceId in the middle of the largest area of each mapping that has the room for it."""
    largest: Dict[int, Area] = {}
    for area in areas:
        old = largest.get(id(area.mapping))
        if old is None or width_of(area) > width_of(old):
            largest[id(area.mapping)] = area
    parts = []
    for area in largest.values():
        left, top, right, bottom = frame.corners(area)
        words = area.mapping["sourceId"]
        if right - left > len(words) * LETTER * 0.6 and bottom - top > LETTER * 1.5:
            parts.append(text_at((left + right) // 2, (bottom + top) // 2 + LETTER // 3, words, " class='n'"))
    return parts


def width_of(area: Area) -> int:
    """How far an area reaches from west to east."""
    return area.high[1] - area.low[1]


def mark(x: int, y: int, is_found: bool) -> str:
    """A point that was asked for: a dot where something was found, else a cross."""
    if is_found:
        return f"<circle cx='{x}' cy='{y}' r='22' fill='{GREEN}' stroke='#fff' stroke-width='8'/>"
    return f"<path d='M{x - 20} {y - 20}l40 40m0-40l-40 40' stroke='{RED}' stroke-width='7' fill='none'/>"


def points(findings: List[Finding], frame: Frame) -> List[str]:
    """The points that were asked for, with their numbers."""
    parts = []
    for number, finding in enumerate(findings, 1):
        x, y = frame.place(finding.point)
        if not frame.has(x, y):
            continue
        parts += [mark(x, y, bool(finding.found)), text_at(x + 50, y - 24, str(number), " class='n'")]
    return parts


def finding_text(number: int, finding: Finding) -> str:
    """What was asked and found, in words."""
    latitude, longitude = map(degrees_of, finding.point)
    what = "; ".join(title_of(mapping) + (" as a default" if mapping.get("default") else "") for mapping in finding.found)
    return f"{number}: {latitude}, {longitude}{finding.asked}: {what or finding.nothing}"


def keys(x: int, y: int) -> List[str]:
    """What the lines and marks mean."""
    line = f"<path class='%s' stroke='{INK}' d='M{x} %dh200'/>"
    return [
        line % ("s", y - 18),
        text_at(x + 240, y, "an edge that belongs to its area (lower or left)"),
        line % ("d", y - 18 + LINE),
        text_at(x + 240, y + LINE, "an edge that does not (upper or right): a point on it is outside"),
        mark(x + 2_080, y - 18, True),
        text_at(x + 2_140, y, "a point that was asked for, and found something"),
        mark(x + 2_080, y - 18 + LINE, False),
        text_at(x + 2_140, y + LINE, "a point that found nothing"),
    ]


def listing(shown: List[Dict[str, Any]], numbers: Dict[int, int], x: int, y: int) -> Tuple[List[str], int]:
    """The mappings with their colors, in three columns; and where the next line is."""
    parts, column = [], (WIDTH - 2 * MARGIN) // 3
    for place, mapping in enumerate(shown[:MOST_LISTED]):
        at, down = x + place % 3 * column, y + place // 3 * LINE
        colors = fill_color(numbers[id(mapping)]), line_color(numbers[id(mapping)])
        parts.append(f"<rect x='{at}' y='{down - 44}' width='56' height='48' fill='{colors[0]}' stroke='{colors[1]}'/>")
        words = f"{mapping['sourceId']} ({mapping['service'].split(':')[-1]})"
        parts.append(text_at(at + 80, down, words if len(words) <= 40 else words[:39] + "…"))
    rows = (min(len(shown), MOST_LISTED) + 2) // 3
    return parts, y + rows * LINE


def legend(
    shown: List[Dict[str, Any]], numbers: Dict[int, int], findings: List[Finding], notes: List[str], y: int
) -> Tuple[List[str], int]:
    """All that stands below the map, and how far it reaches."""
    parts = keys(MARGIN, y)
    listed, y = listing(shown, numbers, MARGIN, y + 5 * LINE // 2)
    rest = [f"and {len(shown) - MOST_LISTED} more"] if len(shown) > MOST_LISTED else []
    texts = rest + [finding_text(number, finding) for number, finding in enumerate(findings, 1)] + notes
    for words in texts:
        parts.append(text_at(MARGIN, y, words))
        y += LINE
    return parts + listed, y


def bounds(frame: Frame) -> List[str]:
    """The frame of the map, with its latitudes and longitudes."""
    left, top = MARGIN, MARGIN + LINE
    right, bottom = left + frame.width, top + frame.height
    north, south = frame.north / 1e7, (frame.north - frame.height * frame.latitude_step) / 1e7
    west, east = frame.west / 1e7, (frame.west + frame.width * frame.longitude_step) / 1e7
    return [
        f"<rect x='{left}' y='{top}' width='{frame.width}' height='{frame.height}' fill='none' stroke='#999'/>",
        text_at(left, top - 20, f"latitude {north:.5g}, longitude {west:.5g}"),
        text_at(right, bottom + LINE - 12, f"latitude {south:.5g}, longitude {east:.5g}", " text-anchor='end'"),
    ]


def clipped(parts: List[str], frame: Frame) -> List[str]:
    """Parts of the picture, as far as they are in the frame."""
    box = f"<rect x='{MARGIN}' y='{MARGIN + LINE}' width='{frame.width}' height='{frame.height}'/>"
    return [f"<clipPath id='frame'>{box}</clipPath><g clip-path='url(#frame)'>", *parts, "</g>"]


def draw(title: str, areas: List[Area], findings: List[Finding], notes: List[str], box: Optional[Box] = None) -> str:
    """The picture; of what is in a box alone, if there is one."""
    frame = frame_of(*box) if box else frame_around(areas, findings)
    shown = list({id(area.mapping): area.mapping for area in areas}.values())
    numbers = {id(mapping): number for number, mapping in enumerate(shown)}
    below, end = legend(shown, numbers, findings, notes, MARGIN + LINE + frame.height + 3 * LINE)
    land = [*fills(areas, numbers, frame), *edge_paths(areas, numbers, frame), *names(areas, frame)]
    parts = [
        f"<svg xmlns='http://www.w3.org/2000/svg' viewBox='0 0 {WIDTH} {end}'>",
        f"<title>{safe(title)}</title><style>{STYLE}</style>",
        f"<rect width='{WIDTH}' height='{end}' fill='#fff'/>",
        text_at(MARGIN, MARGIN - 32, title, " style='font-weight:bold'"),
        *(clipped(land, frame) if box else land),
        *points(findings, frame),
        *bounds(frame),
        *below,
        "</svg>",
    ]
    return "\n".join(parts) + "\n"
