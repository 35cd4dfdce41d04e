"""A county of districts side by side: their borders are crooked, and both neighbours name the same positions of each."""
import random

NOW = "2026-06-01T00:00:00Z"
POLICE = "urn:service:sos.police"
SOURCE = "county.example"


class County:
    """Districts by row and column. `borders` has the positions of each border, by its ends."""

    def __init__(self, rows, columns, seed, size=100_000, steps=6, corner=(380_000_000, 235_000_000)):
        self.dice = random.Random(seed)
        self.rows, self.columns, self.size, self.steps = rows, columns, size, steps
        self.corners = {
            (row, column): self.corner(corner, row, column) for row in range(rows + 1) for column in range(columns + 1)
        }
        self.borders = {}
        for row, column in self.corners:
            for end in ((row, column + 1), (row + 1, column)):
                if end in self.corners:
                    self.borders[(row, column), end] = self.border((row, column), end)

    def near(self, value, share):
        """A number near another one, by a share of the districts' size."""
        return value + round(self.dice.uniform(-share, share) * self.size)

    def corner(self, origin, row, column):
        """Where four districts meet."""
        return tuple(self.near(origin[axis] + place * self.size, 0.12) for axis, place in ((0, row), (1, column)))

    def border(self, begin, end):
        """The positions between two corners, and these: each is a little off the line, and by less where they are closer."""
        (lat0, lon0), (lat1, lon1) = self.corners[begin], self.corners[end]
        off = 0.18 / self.steps
        shares = [step / self.steps for step in range(1, self.steps)]
        between = [(self.near(lat0 + share * (lat1 - lat0), off), self.near(lon0 + share * (lon1 - lon0), off)) for share in shares]
        return [(lat0, lon0), *((round(lat), round(lon)) for lat, lon in between), (lat1, lon1)]

    def way(self, begin, end):
        """The positions from a corner to the next, without the last."""
        return self.borders[begin, end][:-1] if (begin, end) in self.borders else self.borders[end, begin][:0:-1]

    def walk(self, corners):
        """The closed ring through corners."""
        ring = [position for pair in zip(corners, corners[1:] + corners[:1]) for position in self.way(*pair)]
        return ring + ring[:1]

    def ring(self, row, column):
        """The boundary of a district."""
        return self.walk([(row, column), (row, column + 1), (row + 1, column + 1), (row + 1, column)])

    def outline(self):
        """The boundary of the county."""
        south = [(0, column) for column in range(self.columns)]
        east = [(row, self.columns) for row in range(self.rows)]
        north = [(self.rows, column) for column in range(self.columns, 0, -1)]
        west = [(row, 0) for row in range(self.rows, 0, -1)]
        return self.walk(south + east + north + west)

    def mappings(self):
        """A mapping for each district."""
        places = [(row, column) for row in range(self.rows) for column in range(self.columns)]
        return [mapping(f"D{number:03}", [self.ring(*place)]) for number, place in enumerate(places, 1)]


def region(ring):
    """A polygon as a region."""
    return {"profile": "geodetic-2d", "polygon": [list(position) for position in ring]}


def mapping(name, rings, **more):
    """The mapping of some rings."""
    return {
        "source": SOURCE, "sourceId": name, "key": f"{name}-1", "service": POLICE, "lastUpdated": "2026-01-01T00:00:00Z",
        "expires": "NO-EXPIRATION", "uri": [f"sip:{name.strip()}@police.example"], "serviceBoundary": [region(ring) for ring in rings],
        "displayName": [{"lang": "en", "text": f"District {name}"}], **more,
    }
