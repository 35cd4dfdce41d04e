"""What a reply costs a worker at places that it was asked for before, which it keeps, and at places that it was not."""
import random
import statistics

from asked import Asked
from building.faults import Fault
from measuring import Load, Plan, on_cores
from replays import in_turns
from sides import Lostd
from streams import line, publish, round_ring

# So many places lie side by side, each in so many boundaries of so many positions.
PLACES, APART, INSIDE = 100, 110_000, 30_000
MAPS = [(10, 400), (1, 200)]
# A worker keeps 1,024 places: those asked last. So of few it has all, and of many that come in turn none.
FEW, MANY = 1_000, 20_000
PLAN = Plan(1, 16, None)


def middle_of(place):
    """The middle of a place."""
    row, column = divmod(place, 10)
    return row * APART, column * APART


def write_map(path, boundaries, positions):
    """Writes a map with so many boundaries of so many positions over each place."""
    with open(path, "wb") as file:
        for number in range(PLACES * boundaries):
            region = {"polygon": round_ring(positions - 1, *middle_of(number // boundaries)), "profile": "geodetic-2d"}
            file.write(publish(number, region) + b"\n")
        file.write(line("commit", {}) + b"\n")


def requests(count):
    """So many requests at different points, which all boundaries over their places hold."""
    dice = random.Random(count)
    points = {}
    while len(points) < count:
        lat, lon = middle_of(dice.randrange(PLACES))
        points[lat + dice.randint(-INSIDE, INSIDE), lon + dice.randint(-INSIDE, INSIDE)] = None
    return b"".join(
        line("findService", {"location": [{"id": "p", "pos": point, "profile": "geodetic-2d"}], "service": "urn:service:sos.police"}) + b"\n"
        for point in points
    )


def measure_cache(program, options, cores, folder):
    """Measures a worker, and prints the processor time of a reply."""
    load = Load(folder, options.seconds)
    for boundaries, positions in MAPS:
        path = f"{folder}/map"
        write_map(path, boundaries, positions)
        with on_cores(cores[-1:]):
            server = Lostd(program.path, path)
        with server:
            files = [Asked(server.port, requests(count), f"{folder}/{count}").write() for count in (FEW, MANY)]
            rounds = [in_turns(number, files, lambda file: time_of_reply(load, server, file, cores[:-1])) for number in range(options.rounds + 1)]
        again, once = (statistics.median(spent) for spent in zip(*rounds[1:]))
        of = f"{boundaries} boundaries" if boundaries > 1 else "1 boundary"
        print(f"{of} of {positions} positions: {again * 1e9:.0f} nanoseconds a reply at points asked again and again,"
              f" {once * 1e9:.0f} at points asked once", flush=True)


def time_of_reply(load, server, pairs, cores):
    """The processor time of the server for a reply, in seconds."""
    rate, share = load.ask(server, pairs, PLAN, cores)
    if not rate:
        raise Fault(f"no reply came within {load.seconds} s: give more --seconds")
    return share / rate
