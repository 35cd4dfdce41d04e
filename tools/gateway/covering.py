"""Answers for areas: asks at points of an area, and computes which share of it each mapping found covers.

Points are asked for in a burst on one connection. Where the boundaries found leave an eighth of the area or more, one or two
further bursts ask there. All answers must be of one edition. Where they are not, since the desk committed meanwhile, all are
asked for again.
"""
from __future__ import annotations

import json
from typing import Any, Awaitable, Callable, Dict, List, NamedTuple, Optional, Sequence, Tuple

from gateway.pool import Pool
from gateway.positions import Point
from gateway.regions import Key, Region, Regions, region_of, shape_of_area
from gateway.replies import NoReply, OwnWarning
from gateway.requests import Request
from gateway.sampling import first_points, further_points
from gateway.vocabulary import BOUNDARY, FIND, SERVICES_BY_LOCATION, WARNINGS
from maptools.lines import line_of

MOST_TRIES = 5
OF_THE_PLACE = ("notFound", "serviceNotImplemented")
Reply = Dict[str, Any]
InThread = Callable[..., Awaitable[Any]]


class Changing(Exception):
    """The answers are not of one edition."""


class Refused(Exception):
    """A point got an error that is none of the place."""

    def __init__(self, value: Reply) -> None:
        super().__init__(value.get("error"))
        self.value = value


class Found(NamedTuple):
    """A mapping that was found, the reply that has it, and the region that it has, where it is no default."""

    mapping: Dict[str, Any]
    reply: Reply
    region: Optional[Region]


class Further(NamedTuple):
    """The share of an area that no boundary found covers, and the points there that are asked for next."""

    uncovered: float
    points: List[Point]


class Covered(NamedTuple):
    """The reply for an area, and the gateway's own warning."""

    name: str
    value: Dict[str, Any]
    warning: Optional[OwnWarning]


class Choice(NamedTuple):
    """Which of the mappings found are answered: the one that covers most, or all that cover at least a share."""

    way: str
    least: float


def one_reply(line: bytes) -> Tuple[str, Reply]:
    """The name and the members of a line of reply."""
    try:
        ((name, value),) = json.loads(line).items()
        return name, dict(value)
    except (ValueError, AttributeError, TypeError):
        raise NoReply("a line from behind is no reply") from None


def key_of(mapping: Dict[str, Any]) -> Key:
    """By what a boundary is kept: its key, and the mapping that has it, with its stamp."""
    return mapping["source"], mapping["sourceId"], mapping["lastUpdated"], mapping["serviceBoundaryReference"]["key"]


def depth(mapping: Dict[str, Any]) -> int:
    """How many dots the service of a mapping has, or of a request: a more special one has more."""
    return int(mapping["service"].count("."))


def is_implemented(replies: List[Tuple[str, Reply]]) -> bool:
    """Whether the server has mappings of the service, at some place."""
    return any(value.get("error") != "serviceNotImplemented" for _, value in replies)


class Covering:
    """Asks the servers of a pool about areas."""

    def __init__(self, pool: Pool, choice: Choice, in_a_thread: InThread) -> None:
        self.pool, self.choice, self.in_a_thread = pool, choice, in_a_thread
        self.regions = Regions()

    def lines(self, request: Request, points: Sequence[Point]) -> List[bytes]:
        """A line for each point."""
        used = request.used
        members = {name: value for name, value in request.members.items() if name != "serviceBoundary"}
        lines = []
        for point in points:
            place = {**(used.item if used else {}), "pos": list(point)}
            lines.append(line_of({request.kind: {**members, "location": [place]}}).encode() + b"\n")
        return lines

    async def ask(self, lines: List[bytes], edition: Optional[int]) -> Tuple[List[Tuple[str, Reply]], str]:
        """The replies to lines of one burst, and the server that gave them; Changing where they are of several editions."""
        replies = await self.pool.ask_burst(lines)
        read = [one_reply(reply.line) for reply in replies]
        for name, value in read:
            if name == "errors" and value.get("error") not in OF_THE_PLACE:
                raise Refused(value)
        if len({value.get("edition") for _, value in read} | ({edition} if edition is not None else set())) > 1:
            raise Changing
        return read, replies[0].server

    async def answer(self, request: Request) -> Tuple[Covered, str]:
        """The reply for the area of a request, and the server that gave it."""
        for _ in range(MOST_TRIES):
            try:
                return await self.answer_once(request)
            except Changing:
                continue
            except Refused as error:
                return Covered("errors", error.value, None), self.pool.servers[0].label
        raise NoReply(f"the map changed {MOST_TRIES} times while an area was asked for")

    async def answer_once(self, request: Request) -> Tuple[Covered, str]:
        """The same, while the map does not change."""
        area = request.used.shape if request.used else None
        assert area is not None
        shape = await self.in_a_thread(shape_of_area, area)
        points = await self.in_a_thread(first_points, area, shape)
        replies, server = await self.ask(self.lines(request, points), None)
        if request.kind == SERVICES_BY_LOCATION:
            return services(replies, area.name), server
        found = await self.found(replies)
        further = await self.in_a_thread(further_of, request, shape, found, points)
        while further.points and is_implemented(replies):
            points += further.points
            replies += (await self.ask(self.lines(request, further.points), replies[0][1].get("edition")))[0]
            found = await self.found(replies)
            further = await self.in_a_thread(further_of, request, shape, found, points)
        if not found:
            return first_of(replies, area.name), server
        shares = await self.in_a_thread(shares_of, shape, found)
        return self.chosen(request, found, shares, further.uncovered), server

    async def found(self, replies: List[Tuple[str, Reply]]) -> List[Found]:
        """The mappings in replies that are no defaults, each once, with their regions."""
        mappings: Dict[Tuple[str, str], Tuple[Dict[str, Any], Reply]] = {}
        for name, value in replies:
            if name == f"{FIND}Response":
                for mapping in value["mapping"]:
                    if "serviceBoundaryReference" in mapping:
                        mappings.setdefault((mapping["source"], mapping["sourceId"]), (mapping, value))
        edition = replies[0][1].get("edition")
        regions = await self.regions_of([mapping for mapping, _ in mappings.values()], edition)
        return [Found(mapping, value, regions[key_of(mapping)]) for mapping, value in mappings.values()]

    async def regions_of(self, mappings: List[Dict[str, Any]], edition: Optional[int]) -> Dict[Key, Region]:
        """The regions of mappings of an edition; those that are not kept are asked for.

        A key that was given up may name other regions later. Those of another edition are kept, and then Changing is raised: if
        the mapping is the same when all is asked for again, so are its regions.
        """
        kept = {key_of(mapping): self.regions.table.get(key_of(mapping)) for mapping in mappings}
        missing = [key for key, region in kept.items() if region is None]
        if missing:
            lines = [line_of({BOUNDARY: {"key": key[-1]}}).encode() + b"\n" for key in missing]
            read = [one_reply(reply.line) for reply in await self.pool.ask_burst(lines)]
            for key, (name, value) in zip(missing, read):
                if name != f"{BOUNDARY}Response":
                    raise Changing
                kept[key] = await self.in_a_thread(region_of, value["serviceBoundary"])
                self.regions.keep(key, kept[key])
            if any(value.get("edition") != edition for _, value in read):
                raise Changing
        return {key: region for key, region in kept.items() if region is not None}

    def chosen(self, request: Request, found: List[Found], shares: List[float], rest: float) -> Covered:
        """The reply with the mappings that are chosen, most first."""
        ranked = sorted(zip(shares, range(len(found))), key=lambda one: (-round(one[0], 9), one[1]))
        least = self.choice.least if self.choice.way == "all" else 2.0
        picked = [number for share, number in ranked if share >= least - 1e-9] or [ranked[0][1]]
        by_value = request.members.get("serviceBoundary") == "value"
        mappings = [valued(found[number]) if by_value else found[number].mapping for number in picked]
        said = {name for number in picked for name in found[number].reply.get("warnings", [])}
        value = {**found[picked[0]].reply, "mapping": mappings, "warnings": [name for name in WARNINGS if name in said]}
        names = [(found[number].mapping["sourceId"], share) for share, number in ranked if share > 0]
        area = request.used.shape.name if request.used and request.used.shape else ""
        return Covered(f"{FIND}Response", value, shares_warning(self.choice.way, area, names, rest))


def valued(found: Found) -> Dict[str, Any]:
    """A mapping by value: with its regions for a reference to them."""
    regions = found.region.regions if found.region else []
    mapping = {name: value for name, value in found.mapping.items() if name != "serviceBoundaryReference"}
    return {**mapping, "serviceBoundary": regions}


def above(shape: Any, found: List[Found], levels: int) -> Any:
    """What is left of a shape outside of the mappings whose service is more special than so many labels."""
    for one in found:
        if one.region is not None and depth(one.mapping) > levels:
            shape = shape.difference(one.region.shape)
    return shape


def shares_of(shape: Any, found: List[Found]) -> List[float]:
    """The share of an area in which each mapping is the answer: within its regions, and outside of those of a more special service."""
    shares = []
    for one in found:
        inside = shape.intersection(one.region.shape) if one.region is not None else shape
        shares.append(above(inside, found, depth(one.mapping)).area / shape.area)
    return shares


def further_of(request: Request, shape: Any, found: List[Found], asked: List[Point]) -> Further:
    """What is left of an area outside of the regions found of the service asked for, and the points there that are asked for next.

    The regions of a service above it leave the place open: at a place in them the server has nothing more special, and says
    nothing of what lies around it.
    """
    rest = above(shape, found, depth(request.members) - 1)
    return Further(rest.area / shape.area, further_points(rest, shape.area, asked))


def shares_warning(way: str, area: str, names: List[Tuple[str, float]], rest: float) -> OwnWarning:
    """The gateway's warning: the way in which was chosen, the share that each mapping covers, and the share in none of the service."""
    shown = ", ".join(f"{name} {100 * share:.0f} %" for name, share in names)
    chosen = "the mapping that covers most of it" if way == "largest" else "the mappings that cover most of it"
    text = f"the location is an area, and the answer is {chosen}: {shown or 'none covers more than its edge'}"
    said = (("shape", area), ("way", way), ("shares", " ".join(f"{share:.4f}" for _, share in names)))
    return OwnWarning("sharesOfArea", text, (*said, ("uncovered", f"{rest:.4f}")))


def first_of(replies: List[Tuple[str, Reply]], area: str) -> Covered:
    """The reply where no point has a mapping but a default: the first that is no error, or else the first."""
    name, value = next((one for one in replies if one[0] != "errors"), replies[0])
    text = f"the location is an area; no mapping was found at {len(replies)} points of it, and a default stands in"
    return Covered(name, value, OwnWarning("defaultForArea", text, (("shape", area),)))


def services(replies: List[Tuple[str, Reply]], area: str) -> Covered:
    """The services at any of the points."""
    name, value = replies[0]
    listed = sorted({service for _, one in replies for service in one["serviceList"]})
    text = f"the location is an area; the services are those at {len(replies)} points of it"
    return Covered(name, {**value, "serviceList": listed}, OwnWarning("servicesOfArea", text, (("shape", area),)))
