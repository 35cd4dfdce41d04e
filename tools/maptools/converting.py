"""Desk lines from features: the same whether they come from a file or from a table."""
from __future__ import annotations

import argparse
from typing import Any, Iterable, Optional

from maptools.against import EditWriter
from maptools.desk_features import mapping_of_desk_feature
from maptools.desk_map import DeskMap
from maptools.left_out import LeftOut
from maptools.line_writing import Writer, write_commit
from maptools.mapping_making import identity_if_known, mapping_of_feature, named_properties
from maptools.mapping_words import constant_text, is_constant, templates_of
from maptools.meridian import Unfit
from maptools.templates import names_of


def left_out_of(program: str, noun: str, options: argparse.Namespace) -> LeftOut:
    """What is to say what is left out: it knows which properties the command line names, and which a table does."""
    all_names = {name for template in templates_of(options) for name in names_of(template)}
    given = options.given_names | {name for name in (options.default, options.tokens) if name}
    return LeftOut(program, noun, all_names | given, all_names - given)


def take(options: argparse.Namespace, writer: Writer, left_out: LeftOut, number: int, feature: Any) -> None:
    """Makes the line of a feature; Unfit where it has none."""
    identity = None
    try:
        properties = named_properties(options, feature, number)
        left_out.look(properties)
        identity = identity_if_known(options, properties)
        make = mapping_of_desk_feature if options.from_desk else mapping_of_feature
        writer.take(number, make(options, feature, properties))
    except Unfit:
        writer.spare(identity)
        raise


def id_text(feature: Any) -> str:
    """The id of a feature, where it has one."""
    given = feature.get("id") if isinstance(feature, dict) else None
    return "" if given is None else f" (id {str(given)!r})"


def convert(program: str, noun: str, options: argparse.Namespace, features: Iterable[Any], before: Optional[DeskMap] = None) -> int:
    """Writes the lines, or the edits from a map, which is given or named by the options; the exit status."""
    left_out = left_out_of(program, noun, options)
    writer = EditWriter(options, noun, before) if options.against else Writer(options, noun)
    if options.is_of_one_source and is_constant(options.source):
        writer.spare_others(constant_text(options.source))
    total = 0
    for number, feature in enumerate(features, 1):
        total = number
        try:
            take(options, writer, left_out, number, feature)
        except Unfit as unfit:
            left_out.add(f"{noun} {number}{id_text(feature)}", unfit)
    left_out.finish()
    became = total - left_out.count
    edits = writer.finish(left_out)
    if options.commit:
        write_commit(options, left_out)
    left_out.say(edits or f"{became} of {total} {noun}s became lines")
    return left_out.status()
