"""A map of districts side by side, with boundaries of 20 to 400 positions."""
import os

SIDE, COLUMNS, FEWEST, MORE = 500_000, 245, 20, 377
MAPPING = (
    '{"%s":{"expires":"NO-EXPIRATION","key":"%d-%s","lastUpdated":"%s","service":"urn:service:sos.police","serviceBoundary":'
    '[{"polygon":[%s],"profile":"geodetic-2d"}],"source":"map.example","sourceId":"%d","uri":["sip:%d@map.example"]}}'
)
BEFORE, AFTER = "2025-12-01T00:00:00Z", "2025-12-02T00:00:00Z"


def ring(number):
    """The positions of a district, one after another around it."""
    low, left = number // COLUMNS * SIDE, number % COLUMNS * SIDE
    each = (FEWEST + number * 7919 % MORE) // 4
    steps = [SIDE * step // each for step in range(each)]
    below, right = [(low, left + step) for step in steps], [(low + step, left + SIDE) for step in steps]
    above, back = [(low + SIDE, left + SIDE - step) for step in steps], [(low + SIDE - step, left) for step in steps]
    return [*below, *right, *above, *back, (low, left)]


def line(verb, number, updated):
    """The desk line of a district."""
    positions = ",".join(f"[{lat},{lon}]" for lat, lon in ring(number))
    return (MAPPING % (verb, number, verb, updated, positions, number, number)).encode()


def write_map(path, boundaries):
    """Writes the map; how many bytes it has."""
    with open(path, "wb") as file:
        for number in range(boundaries):
            file.write(line("publish", number, BEFORE) + b"\n")
        file.write(b'{"commit":{}}\n')
    return os.path.getsize(path)
