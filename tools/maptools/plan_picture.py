"""Draws a plan: the outlines of what moves, comes and goes, as they are held and as they are to be."""
from __future__ import annotations

from typing import List

from maptools.picture import GREEN, INK, LINE, MARGIN, RED, STYLE, WIDTH, Frame, bounds, frame_around, names, path_of, safe, text_at
from maptools.places import Area, areas_of
from maptools.plan import Change, boundary_text

OLD, NEW = "stroke-dasharray:20 14", "fill-opacity:.18"


def moves(change: Change) -> bool:
    """Whether a change is one of an outline."""
    return change.old is None or change.new is None or bool(boundary_text(change.old, change.new))


def outline(area: Area, frame: Frame, color: str, style: str, fill: str) -> str:
    """The outline of an area."""
    path = path_of([frame.line(area.polygon)])
    return f"<path d='{path}' stroke='{color}' stroke-width='6' fill='{fill}' fill-rule='evenodd' style='{style}'/>" if path else ""


def legend(y: int, count: int) -> List[str]:
    """What the lines mean."""
    line = "<path d='M{} {}h200' stroke='{}' stroke-width='6' style='{}'/>"
    return [
        line.format(MARGIN, y - 18, RED, OLD),
        text_at(MARGIN + 240, y, "as the server holds it"),
        line.format(MARGIN + 1_200, y - 18, GREEN, ""),
        text_at(MARGIN + 1_440, y, "as it is to be"),
        text_at(WIDTH - MARGIN, y, f"{count:,} of the changes are of outlines", " text-anchor='end'"),
    ]


def draw_plan(title: str, changes: List[Change]) -> str:
    """The picture."""
    moved = [change for change in changes if moves(change)]
    old = areas_of(change.old for change in moved if change.old)
    new = areas_of(change.new for change in moved if change.new)
    named = new + areas_of(change.old for change in moved if change.old and not change.new)
    frame = frame_around(old + new, [])
    below = MARGIN + LINE + frame.height + 3 * LINE
    parts = [
        f"<svg xmlns='http://www.w3.org/2000/svg' viewBox='0 0 {WIDTH} {below + LINE}'>",
        f"<title>{safe(title)}</title><style>{STYLE}</style>",
        f"<rect width='{WIDTH}' height='{below + LINE}' fill='#fff'/>",
        text_at(MARGIN, MARGIN - 32, title, f" style='font-weight:bold;fill:{INK}'"),
        *(outline(area, frame, GREEN, NEW, GREEN) for area in new),
        *(outline(area, frame, RED, OLD, "none") for area in old),
        *names(named, frame),
        *bounds(frame),
        *legend(below, len(moved)),
        "</svg>",
    ]
    return "\n".join(parts) + "\n"
