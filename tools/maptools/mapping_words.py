"""The options of a command line that say what stands in the mappings: the same for each tool that makes desk lines."""
from __future__ import annotations

import argparse
from typing import Dict, List, NoReturn, Optional, Tuple

from maptools.templates import Template, names_of, template_of
from maptools.times import now_stamp

REQUIRED = ("source", "service", "uri", "updated")
NO_EXPIRATION = "NO-EXPIRATION"
KEY = "{@source-id}-{@regions}"
NOW = "now"

Display = Tuple[str, Template]


def template_argument(text: str) -> Template:
    """A template of the command line."""
    try:
        return template_of(text)
    except ValueError as error:
        raise argparse.ArgumentTypeError(str(error)) from None


def display_argument(text: str) -> Display:
    """LANG=TEMPLATE of the command line."""
    language, equals, template = text.partition("=")
    if not equals:
        raise argparse.ArgumentTypeError(f"{text!r} is not LANG=TEMPLATE")
    return language, template_argument(template)


def add_mapping_words(words: argparse.ArgumentParser, source_id: str) -> None:
    """Adds the options; the sourceId has this template unless it is given."""
    template = {"metavar": "TEMPLATE", "type": template_argument}
    words.add_argument("--source", help="the source of every mapping, such as map.example", **template)
    words.add_argument("--service", help="the service, such as urn:service:sos.police", **template)
    words.add_argument("--uri", action="append", help="how to reach the centre; repeat it for other schemes", **template)
    words.add_argument(
        "--updated", help="lastUpdated: now, or a time with its offset, such as 2026-11-23T00:00:00Z or 2026-11-23T00:00:00-05:00", **template
    )
    words.add_argument("--source-id", help=f"the sourceId; the default is {source_id}", **template)
    words.add_argument("--key", help=f"the key; the default is {KEY}", **template)
    words.add_argument("--expires", help=f"a time with its offset, NO-CACHE or {NO_EXPIRATION} (the default)", **template)
    words.add_argument("--service-number", help="the number to dial", **template)
    words.add_argument(
        "--display", action="append", metavar="LANG=TEMPLATE", type=display_argument, help="a name to show; repeat it for more"
    )
    words.set_defaults(usual_source_id=source_id, is_guarded=False, is_of_one_source=False)


def add_feature_words(words: argparse.ArgumentParser, noun: str) -> None:
    """Adds the options of what becomes the boundary."""
    default = f"a {noun} whose PROPERTY is true becomes a default: it has no boundary, and its geometry is null"
    words.add_argument("--default", metavar="PROPERTY", help=default)
    words.add_argument("--tokens", metavar="PROPERTY", help="the tokens of PROPERTY become a token set beside the polygons")
    words.add_argument("--decimal", action="store_true", help="write positions as text of degrees, such as \"0.5 -0.0000001\"")
    words.add_argument("--flat", action="store_true", help="take each step as it is drawn: none crosses the 180th meridian")


def add_writing_words(words: argparse.ArgumentParser) -> None:
    """Adds the options of the lines."""
    words.add_argument("--replace", action="store_true", help="write replace lines, for mappings that the server holds")
    words.add_argument("--commit", action="store_true", help="write a commit line at the end, unless something was left out")
    words.add_argument("--without-faulty", action="store_true", help="write the commit line even if something was left out")


def complain(words: argparse.ArgumentParser, text: str) -> NoReturn:
    """Says a mistake of the command line in one line, and ends with status 2."""
    words.exit(2, f"{words.prog}: {text}\n")


def give_usual(options: argparse.Namespace, name: str, text: str) -> None:
    """Gives an option its usual template, unless it has one."""
    if getattr(options, name) is None:
        template = template_of(text)
        setattr(options, name, {"uri": [template], "display": [("en", template)]}.get(name, template))


def complete(words: argparse.ArgumentParser, options: argparse.Namespace, usual: Optional[Dict[str, str]] = None) -> None:
    """Gives the options that are left out their templates, by a table first; ends with status 2 where one is missing."""
    options.given_names = {name for template in templates_of(options) for name in names_of(template)}
    for name, text in (usual or {}).items():
        give_usual(options, name, text)
    missing = [f"--{name}" for name in REQUIRED if getattr(options, name) is None]
    if missing:
        words.error(f"the following arguments are required: {', '.join(missing)}")
    for name, text in (("source_id", options.usual_source_id), ("key", KEY), ("expires", NO_EXPIRATION)):
        give_usual(options, name, text)
    options.display = options.display or []
    options.is_stamped_now = options.updated == template_of(NOW)
    if options.is_stamped_now:
        options.updated = template_of(now_stamp())


def templates_of(options: argparse.Namespace) -> List[Template]:
    """All templates of a command line, so far as they are given."""
    names = ("source", "source_id", "service", "updated", "expires", "key", "service_number")
    single = [getattr(options, name) for name in names if getattr(options, name) is not None]
    return [*single, *(options.uri or []), *(template for _, template in options.display or [])]


def is_constant(template: Template) -> bool:
    """Whether a template names no property."""
    return not any(is_name for is_name, _ in template)


def constant_text(template: Template) -> str:
    """The text of a template that names no property."""
    return "".join(piece for _, piece in template)
