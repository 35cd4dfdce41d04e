#!/usr/bin/env python3
"""Draws the pictures of the documents: house.svg, boundary.svg, copies.svg, question.svg, replicas.svg and threads.svg,
beside this file.

Usage: docs/pictures/draw.py          writes the six files
       docs/pictures/draw.py --check  writes nothing, and ends with status 1 where a file is not what it would write
"""
import sys
from pathlib import Path

FONT = "font-family='Helvetica, Arial, sans-serif'"
INK, PALE, BLUE, RED, GREEN = "#222", "#f4f1ea", "#1f5fa8", "#b03030", "#2e7d4f"


class Picture:
    def __init__(self, width, height, title):
        self.parts = [
            f"<svg xmlns='http://www.w3.org/2000/svg' viewBox='0 0 {width} {height}' width='{width}' height='{height}' {FONT}>",
            f"<title>{title}</title>",
            "<defs>" + "".join(
                f"<marker id='{name}' viewBox='0 0 8 8' refX='7' refY='4' markerWidth='7' markerHeight='7' orient='auto'>"
                f"<path d='M0,0 L8,4 L0,8 z' fill='{color}'/></marker>"
                for name, color in (("ink", INK), ("blue", BLUE), ("red", RED), ("green", GREEN))) + "</defs>",
            f"<rect width='{width}' height='{height}' fill='white'/>",
        ]

    def box(self, x, y, w, h, name, what="", fill=PALE, stroke=INK, dash=""):
        dashes = f" stroke-dasharray='{dash}'" if dash else ""
        self.parts.append(f"<rect x='{x}' y='{y}' width='{w}' height='{h}' rx='4' fill='{fill}' stroke='{stroke}'{dashes}/>")
        middle = y + h / 2 + 4
        if what:
            self.text(x + w / 2, middle - 8, name, size=13, bold=True)
            self.text(x + w / 2, middle + 9, what, size=11)
        else:
            self.text(x + w / 2, middle, name, size=13, bold=True)

    def text(self, x, y, words, size=12, color=INK, anchor="middle", bold=False):
        weight = " font-weight='bold'" if bold else ""
        words = words.replace("&", "&amp;").replace("<", "&lt;")
        self.parts.append(f"<text x='{x:g}' y='{y:g}' font-size='{size}' fill='{color}' text-anchor='{anchor}'{weight}>{words}</text>")

    def line(self, points, color=INK, width=1.5, dash="", arrow=""):
        path = " ".join(f"{x:g},{y:g}" for x, y in points)
        dashes = f" stroke-dasharray='{dash}'" if dash else ""
        end = f" marker-end='url(#{arrow})'" if arrow else ""
        self.parts.append(f"<polyline points='{path}' fill='none' stroke='{color}' stroke-width='{width}'{dashes}{end}/>")

    def area(self, points, fill):
        path = " ".join(f"{x:g},{y:g}" for x, y in points)
        self.parts.append(f"<polygon points='{path}' fill='{fill}'/>")

    def dot(self, x, y, color):
        self.parts.append(f"<circle cx='{x:g}' cy='{y:g}' r='5' fill='{color}'/>")

    def write(self):
        return "\n".join(self.parts + ["</svg>"]) + "\n"


# The steps of the two walks of ARCHITECTURE.md: at which step a line, and an edit, comes into a room.
STEPS_OF_A_LINE = {
    "lost_loop": "1, 7", "lost_connections": "1, 2, 7", "lost_worker": "2, 5", "lost_lines": "2", "lost_desk": "2", "lost_tape": "3",
    "lost_reading": "3", "lost_query": "4", "lost_routing": "5", "lost_tables": "5", "lost_regions": "5", "lost_index": "5",
    "lost_grid": "5", "lost_civicdex": "5", "lost_geo": "5", "lost_civic": "5", "lost_book": "5", "lost_writing": "6",
}
STEPS_OF_AN_EDIT = {
    "lost_tape": "1", "lost_reading": "1", "lost_mapping": "1", "lost_book": "2", "lost_routing": "2", "lost_replay": "2, 3",
    "lost_desk": "2, 3, 4", "lost_history": "3",
}


def floors():
    """The layers of crates.txt, lowest first: what each is called, and its crates."""
    found, name = [], ""
    for line in (Path(__file__).resolve().parents[2] / "crates.txt").read_text().splitlines():
        if line.startswith("# "):
            name = line[2:]
        elif line:
            if not found or found[-1][0] != name:
                found.append((name, []))
            found[-1][1].append(line.split(":")[0])
    return found


def house():
    """The crates as rooms, a layer a floor, with the steps of a line (blue) and of an edit (red)."""
    stories = floors()
    product = [story for story in stories if story[1][0].startswith("lost")]
    beside = [story for story in stories if story not in product]
    across, floor, top = 112, 64, 34
    cellar = top + floor * len(product) + 34
    width = 76 + across * max(len(rooms) for _, rooms in stories)
    p = Picture(width, cellar + floor * len(beside) + 10, "The crates by layer, with the steps of a line and of an edit")

    def draw(y, name, rooms, dash=""):
        p.text(42, y + 10, name, size=11, anchor="start")
        for place, room in enumerate(rooms):
            x = 40 + across * place
            p.box(x, y + 15, across - 8, 38, "", dash=dash)
            p.text(x + (across - 8) / 2, y + 32, room, size=12, bold=True)
            if room in STEPS_OF_A_LINE:
                p.text(x + 8, y + 47, STEPS_OF_A_LINE[room], size=11, color=BLUE, anchor="start", bold=True)
            if room in STEPS_OF_AN_EDIT:
                p.text(x + across - 16, y + 47, STEPS_OF_AN_EDIT[room], size=11, color=RED, anchor="end", bold=True)

    p.text(width / 2, 20, "A crate uses crates of its own floor and of the floors below it", size=14, bold=True)
    for number, (name, rooms) in enumerate(reversed(product)):
        draw(top + floor * number, name, rooms)
    p.text(42, cellar - 10, "Blue, left: the steps of a request line.", color=BLUE, anchor="start", bold=True)
    p.text(300, cellar - 10, "Red, right: the steps of an edit.", color=RED, anchor="start", bold=True)
    p.text(520, cellar - 10, "Dashed, below: crates beside the product.", anchor="start")
    for number, (name, rooms) in enumerate(beside):
        draw(cellar + floor * number, name, rooms, "4 3")
    return p.write()


def boundary():
    """Which edges belong to a ring, and in which of two areas a point of a shared edge is."""
    p = Picture(860, 380, "Edges that belong to a boundary and edges that do not")

    def ring(points, belongs, fill):
        p.area(points, fill)
        for (a, b), mine in zip(zip(points, points[1:] + points[:1]), belongs):
            p.line([a, b], BLUE if mine else RED, 3 if mine else 2, "" if mine else "7,5")

    p.text(200, 28, "one boundary", size=15, bold=True)
    ring([(80, 300), (300, 300), (340, 170), (200, 70), (80, 160)], [True, False, False, True, True], "#e8f0fa")
    p.text(205, 200, "inside", size=13)
    p.dot(190, 300, GREEN)
    p.text(190, 322, "on a lower edge: inside", color=GREEN)
    p.dot(80, 230, GREEN)
    p.text(66, 234, "left: inside", color=GREEN, anchor="end", size=11)
    p.dot(270, 120, RED)
    p.text(280, 112, "upper right: outside", color=RED, anchor="start", size=11)
    p.dot(320, 235, RED)
    p.text(332, 240, "right: outside", color=RED, anchor="start", size=11)
    p.text(640, 28, "two boundaries with a shared edge", size=15, bold=True)
    ring([(490, 300), (640, 300), (640, 100), (490, 100)], [True, False, False, True], "#e8f0fa")
    ring([(640, 300), (790, 300), (790, 100), (640, 100)], [True, False, False, True], "#fbf3df")
    p.text(560, 200, "A", size=22, bold=True)
    p.text(720, 200, "B", size=22, bold=True)
    p.dot(640, 170, GREEN)
    p.text(640, 325, "a point of the shared edge is in B alone:", size=12, color=GREEN)
    p.text(640, 341, "it is on the left edge of B and on the right edge of A", size=12, color=GREEN)
    p.text(430, 368, "North is up. Solid edges (lower and left) belong to the area; dashed ones (upper and right) do not.", size=12)
    return p.write()


def copies():
    """Stage and commit, with the two books."""
    p = Picture(860, 330, "Stage and commit")
    heads = ("after two edits are staged", "after the commit")
    for i, head in enumerate(heads):
        x = 40 + 430 * i
        p.text(x + 185, 28, head, size=15, bold=True)
        p.box(x, 60, 370, 70, "", "", fill="#e8f0fa", stroke=BLUE)
        p.text(x + 12, 80, "published: what requests are answered from", color=BLUE, anchor="start")
        p.box(x, 180, 370, 70, "", "", fill="#fbf3df", stroke=RED)
        p.text(x + 12, 200, "staged: what the desk's next edit is checked against", color=RED, anchor="start")
        for k in range(5):
            if i or k < 3:
                p.box(x + 12 + 70 * k, 90, 62, 30, f"edit {k + 1}", fill="white", stroke=BLUE)
            p.box(x + 12 + 70 * k, 210, 62, 30, f"edit {k + 1}", fill="white", stroke=RED)
    p.line([(100, 300), (100, 252)], RED, arrow="red")
    p.text(110, 300, "publish, replace, withdraw", color=RED, anchor="start")
    p.line([(300, 58), (300, 40), (330, 40)], BLUE)
    p.text(335, 45, "requests: edition 3", color=BLUE, anchor="start", size=11)
    p.text(690, 300, "commit: edition 5, all at once or not at all", color=GREEN)
    p.line([(655, 180), (655, 132)], GREEN, 3, arrow="green")
    return p.write()


def question():
    """A question and its answer: a call's place goes in, and the centre that takes the call comes out."""
    p = Picture(860, 230, "A question and its answer")
    for x, fill, name in ((30, "#e8f0fa", "A"), (130, "#fbf3df", "B")):
        p.area([(x, 30), (x + 100, 30), (x + 100, 170), (x, 170)], fill)
        p.line([(x, 30), (x + 100, 30), (x + 100, 170), (x, 170), (x, 30)], BLUE)
        p.text(x + 50, 56, name, size=20, bold=True)
    p.dot(80, 110, RED)
    p.text(80, 134, "a call", color=RED)
    p.text(130, 196, "the map: a boundary for each centre", size=12)
    p.box(400, 75, 130, 60, "lostd", "finds the boundary")
    p.box(720, 75, 120, 60, "centre A", "takes the call", fill="#e8f0fa", stroke=BLUE)
    p.line([(90, 108), (398, 103)], RED, arrow="red")
    p.text(316, 60, "police, for this place?", color=RED)
    p.text(316, 80, "0.5 north, 0.5 east", color=RED, size=11)
    p.line([(532, 105), (718, 105)], GREEN, arrow="green")
    p.text(625, 60, "sip:A@map.example", color=GREEN)
    p.text(625, 80, "by boundary A-1, edition 1", color=GREEN, size=11)
    p.line([(465, 200), (465, 137)], BLUE, arrow="blue")
    p.text(465, 218, "a map desk edits the boundaries meanwhile", color=BLUE)
    return p.write()


def threads():
    """The threads of a server, and what passes between them."""
    p = Picture(860, 400, "The threads of a server, and what passes between them")
    p.box(40, 60, 150, 54, "accepting", "admits connections")
    for k in range(3):
        p.box(320, 40 + 66 * k, 170, 54, ("worker 1", "worker 2", "worker K")[k], "answers its connections", fill="#e8f0fa", stroke=BLUE)
        p.line([(192, 87), (318, 67 + 66 * k)], INK, arrow="ink")
        p.line([(588, 128), (492, 67 + 66 * k)], BLUE, arrow="blue")
    p.text(252, 36, "connections: a queue", size=11)
    p.text(252, 50, "and a wake-up each", size=11)
    p.box(590, 95, 230, 66, "two copies of the book", "readers enter one without a lock", fill="white", stroke=BLUE, dash="4 3")
    p.box(620, 240, 170, 54, "desk", "stages and commits", fill="#fbf3df", stroke=RED)
    p.line([(705, 238), (705, 163)], RED, arrow="red")
    p.text(715, 205, "a commit swaps them", color=RED, anchor="start", size=11)
    p.box(320, 240, 170, 54, "status", "health and metrics, over HTTP")
    p.line([(405, 226), (405, 238)], INK, dash="4 3", arrow="ink")
    p.text(300, 238, "counters, without a lock", size=11, anchor="end")
    p.box(320, 330, 170, 54, "log writer", "standard error")
    p.line([(618, 280), (492, 350)], INK, arrow="ink")
    p.line([(115, 116), (115, 357), (318, 357)], INK, arrow="ink")
    p.text(125, 350, "lines: a queue that nobody waits for", size=11, anchor="start")
    p.text(500, 372, "workers log here too", size=11, anchor="start")
    return p.write()


def replicas():
    """One log, the followers that feed servers from it, and the balancer before these."""
    p = Picture(860, 330, "Publishers, the log and its standby, and followers that feed servers behind a balancer")
    p.box(30, 40, 170, 54, "lost-feed publish", "desk lines, judged first")
    p.box(30, 130, 170, 54, "postgis-to-desk", "a county's own tables")
    p.line([(202, 67), (288, 105)], RED, arrow="red")
    p.line([(202, 157), (288, 125)], RED, arrow="red")
    p.box(290, 88, 150, 54, "the log", "PostgreSQL", fill="#fbf3df", stroke=RED)
    p.box(290, 220, 150, 54, "its standby", "at another site", fill="white", stroke=RED, dash="4 3")
    p.line([(365, 144), (365, 218)], RED, dash="4 3", arrow="red")
    p.text(375, 186, "each commit", color=RED, anchor="start", size=11)
    for k, name in enumerate("abc"):
        top = 30 + 92 * k
        p.box(500, top, 110, 54, "lost-feed", "follow", fill="#e8f0fa", stroke=BLUE)
        p.box(650, top, 90, 54, f"server {name}", "lostd", fill="#e8f0fa", stroke=BLUE)
        p.line([(442, 115), (498, top + 27)], RED, arrow="red")
        p.line([(612, top + 27), (648, top + 27)], RED, arrow="red")
        p.line([(770, 146), (742, top + 27)], INK, arrow="ink")
    p.box(772, 120, 70, 54, "HAProxy")
    p.line([(807, 250), (807, 176)], INK, arrow="ink")
    p.text(807, 266, "clients")
    p.line([(807, 118), (807, 14), (555, 14), (555, 28)], BLUE, dash="4 3", arrow="blue")
    p.text(680, 27, "GET /health", color=BLUE, size=11)
    return p.write()


def main():
    here = Path(__file__).resolve().parent
    pictures = {
        "house.svg": house(), "boundary.svg": boundary(), "copies.svg": copies(), "question.svg": question(), "replicas.svg": replicas(),
        "threads.svg": threads(),
    }
    if sys.argv[1:] == ["--check"]:
        stale = [name for name, text in pictures.items() if not (here / name).exists() or (here / name).read_text() != text]
        for name in stale:
            print(f"{name} is not what draw.py draws", file=sys.stderr)
        return 1 if stale else 0
    if sys.argv[1:]:
        print(__doc__, file=sys.stderr)
        return 2
    for name, text in pictures.items():
        (here / name).write_text(text)
    return 0


if __name__ == "__main__":
    sys.exit(main())
