"""Maps of districts: each service tiles the same land with districts of its own.

Two neighbours share each position of the side between them, and a ring has 21 to 393 positions, mostly some 200.
"""
import json
import math
import random

SIDE, STRAY = 500_000, 60_000
LEAST, MOST = 4, 97
SERVICES = ["urn:service:sos.police", "urn:service:sos.fire", "urn:service:sos.ambulance"]
SOUTH, WEST = 380_000_000, -800_000_000
PUBLISHED, REPLACED = "2025-12-01T00:00:00Z", "2025-12-02T00:00:00Z"


def write_line(described):
    """The bytes of a line."""
    return json.dumps(described, separators=(",", ":")).encode() + b"\n"


class Land:
    """So many mappings, dealt to the services, in rows and columns of districts."""

    def __init__(self, mappings, services=SERVICES):
        self.mappings, self.services = mappings, services
        self.districts = -(-mappings // len(services))
        self.columns = math.isqrt(self.districts - 1) + 1
        self.rows = -(-self.districts // self.columns)
        self.least_ring, self.most_ring = MOST * 8, 0

    def place(self, district):
        """The row and the column of a district."""
        return divmod(district, self.columns)

    def side(self, service, row, column, is_upwards):
        """The positions of a side as JSON, from the corner that it begins at, without the one that it leads to."""
        dice = random.Random(((service * 1_000 + row) * 1_000 + column) * 2 + is_upwards)
        count = dice.randint(LEAST, MOST) + 1
        south, west = SOUTH + row * SIDE, WEST + column * SIDE
        ways = [number * SIDE // count for number in range(count)]
        strays = [0, *(int(dice.random() * STRAY) for _ in range(count - 1))]
        if is_upwards:
            return [f"[{south + way},{west + stray}]" for way, stray in zip(ways, strays)]
        return [f"[{south + stray},{west + way}]" for way, stray in zip(ways, strays)]

    def ring(self, service, district, sides):
        """The ring of a district as JSON; the sides that were drawn are kept, since each stands in two rings."""
        row, column = self.place(district)

        def side(row, column, is_upwards):
            name = (row, column, is_upwards)
            if name not in sides:
                sides[name] = self.side(service, row, column, is_upwards)
            return sides[name]

        south, east = side(row, column, False), side(row, column + 1, True)
        north, west = side(row + 1, column, False), side(row, column, True)
        far = f"[{SOUTH + (row + 1) * SIDE},{WEST + (column + 1) * SIDE}]"
        ring = [*south, *east, far, *north[:0:-1], north[0], *west[:0:-1], south[0]]
        sides.pop((row, column, False)), sides.pop((row, column, True))
        self.least_ring, self.most_ring = min(self.least_ring, len(ring)), max(self.most_ring, len(ring))
        return "[" + ",".join(ring) + "]"

    def mapping(self, verb, number, ring, updated):
        """The line that publishes or replaces a mapping of a ring and the pattern of a town."""
        service, district = self.services[number % len(self.services)], number // len(self.services)
        front = f'{{"{verb}":{{"expires":"NO-EXPIRATION","key":"K-{number}","lastUpdated":"{updated}","service":"{service}",'
        town = f'{{"pattern":{{"A1":"NJ","A3":"Town {district}","country":"US"}},"profile":"civic"}}'
        regions = f'"serviceBoundary":[{{"polygon":{ring},"profile":"geodetic-2d"}},{town}],'
        end = f'"source":"map.example","sourceId":"M-{number}","uri":["sip:m{number}@map.example"]}}}}\n'
        return (front + regions + end).encode()

    def edit(self, verb, number, updated, sides=None):
        """The line that publishes or replaces a mapping; also of one behind the last, whose district is beside the land."""
        service, district = number % len(self.services), number // len(self.services)
        return self.mapping(verb, number, self.ring(service, district, {} if sides is None else sides), updated)

    def publishes(self):
        """The lines that publish all mappings."""
        kept = [{} for _ in self.services]
        for number in range(self.mappings):
            yield self.edit("publish", number, PUBLISHED, kept[number % len(kept)])

    def lines(self):
        """The desk lines: all mappings and a commit, and then one replacement and a commit."""
        yield from self.publishes()
        yield write_line({"commit": {}})
        yield self.edit("replace", 0, REPLACED)
        yield write_line({"commit": {}})

    def write(self, path):
        """Writes the desk lines to a file; how many lines there are."""
        with open(path, "wb") as file:
            return sum(file.write(line) > 0 for line in self.lines())
