"""The book of mappings: its edits, and the codes that refuse them."""
from typing import NamedTuple

from texts import moment_of

MOST_MAPPINGS = 65_536
MOST_EDITS = 4_294_967_295
MOST_TRACES = 65_536
PUBLISH, REPLACE, WITHDRAW = "publish", "replace", "withdraw"


class Edit(NamedTuple):
    """An edit publishes a mapping, replaces one, or withdraws the one with an identity, by a stamp's instant."""

    kind: str
    identity: tuple
    moment: tuple
    mapping: object = None


class Trace(NamedTuple):
    """What is remembered of a withdrawal: the identity, and the stamp's instant."""

    identity: tuple
    moment: tuple


class Book(NamedTuple):
    """A list of mappings, the number of edits that were accepted, and the traces of the identities that are withdrawn."""

    mappings: tuple = ()
    edits: int = 0
    traces: tuple = ()


def held(book, identity):
    """The mapping that is held with an identity, live or not; None where there is none."""
    return next((mapping for mapping in book.mappings if mapping.identity == identity), None)


def is_not_newer(edit, old):
    """The stamp's instant is not after that of the mapping held."""
    return edit.moment <= moment_of(old.last_updated)


def is_of_withdrawn(edit, traces):
    """The identity has a trace, and the stamp's instant is not after that of the withdrawal."""
    return any(trace.identity == edit.identity and edit.moment <= trace.moment for trace in traces)


def is_key_held(book, mapping):
    """Another mapping has the key; a default has none."""
    others = (other for other in book.mappings if other.identity != mapping.identity)
    return mapping.key is not None and any(other.key == mapping.key for other in others)


def same_regions(mapping, old):
    """Regions are the same where all three lists are: polygons by positions, patterns by names and values, sets by tokens as given."""
    return (
        mapping.polygons == old.polygons
        and mapping.patterns == old.patterns
        and mapping.token_sets == old.token_sets
    )


def is_key_unchanged(mapping, old):
    """The regions changed and the key did not."""
    return not same_regions(mapping, old) and mapping.key == old.key


def refusals(book, edit):
    """The codes that refuse an edit, in the order of the checks; the first is the refusal."""
    old = held(book, edit.identity)
    if book.edits >= MOST_EDITS:
        yield 19
    if edit.kind == PUBLISH and old:
        yield 13
    if edit.kind == PUBLISH and is_of_withdrawn(edit, book.traces):
        yield 21
    if edit.kind != PUBLISH and not old:
        yield 14
    if edit.kind != PUBLISH and is_not_newer(edit, old):
        yield 15
    if edit.kind == WITHDRAW and len(book.traces) >= MOST_TRACES:
        yield 22
    if edit.kind == PUBLISH and len(book.mappings) >= MOST_MAPPINGS:
        yield 18
    if edit.kind != WITHDRAW and is_key_held(book, edit.mapping):
        yield 16
    if edit.kind == REPLACE and is_key_unchanged(edit.mapping, old):
        yield 17


def published(mappings, mapping):
    """A publish appends the mapping."""
    return (*mappings, mapping)


def replaced(mappings, new):
    """A replacement puts the mapping at the place of the one with its identity."""
    return tuple(new if mapping.identity == new.identity else mapping for mapping in mappings)


def withdrawn(mappings, identity):
    """A withdrawal removes the mapping with the identity, and the list closes up."""
    return tuple(mapping for mapping in mappings if mapping.identity != identity)


def traces_after(traces, edit):
    """A withdrawal leaves a trace, a publish takes away that of its identity, and a replacement changes none."""
    if edit.kind == PUBLISH:
        return tuple(trace for trace in traces if trace.identity != edit.identity)
    return (*traces, Trace(edit.identity, edit.moment)) if edit.kind == WITHDRAW else traces


def after(book, edit):
    """The book after an edit that is not refused; the number of edits rises by one."""
    if edit.kind == PUBLISH:
        mappings = published(book.mappings, edit.mapping)
    elif edit.kind == REPLACE:
        mappings = replaced(book.mappings, edit.mapping)
    else:
        mappings = withdrawn(book.mappings, edit.identity)
    return Book(mappings, book.edits + 1, traces_after(book.traces, edit))
