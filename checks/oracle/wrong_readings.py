"""Wrong readings of the rules, each as a stand-in for a function or a constant of the oracle."""
import re
import unicodedata

import answers
import book
import desk_lines
import mappings
import members
import oracle
import places
import request_lines
import search
import strict_json
import texts
import validation

HOLDERS = [
    answers, book, desk_lines, mappings, members, oracle, places, request_lines, search, strict_json, texts, validation,
    oracle.Replay,
]
RIGHT = {name: thing for holder in HOLDERS for name, thing in vars(holder).items()}
DAY_OF_MOST_SESSIONS = texts.moment_of("2026-01-01T00:00:00Z")


def without(code, name):
    """The codes of a function, but for one."""
    return lambda *given: (other for other in RIGHT[name](*given) if other != code)


def earlier(early, late, name):
    """The first code of a function, where one code is looked for just before another that should come before it."""

    def codes(*given):
        seen = RIGHT[name](*given)
        first = next(seen, None)
        if first == late and next(seen, None) == early:
            return [early]
        return [] if first is None else [first]

    return codes


def found_without_the_chain(held, moment, place, service):
    """Looks for holders of the service itself alone, and for defaults as it should."""
    if here := search.holders(held, moment, place, service):
        return search.Found(service, here, False)
    standing_by = [(at, search.defaults(held, moment, at)) for at in search.chain(service)]
    return next((search.Found(at, some, True) for at, some in standing_by if some), None)


def found_defaults_first(held, moment, place, service):
    """Looks for defaults of each service of the chain before the next one's holders."""
    for at in search.chain(service):
        if here := search.holders(held, moment, place, at):
            return search.Found(at, here, False)
        if standing_by := search.defaults(held, moment, at):
            return search.Found(at, standing_by, True)
    return None


def system_looked_at_for_all(location):
    """Looks at the reference system of an address too."""
    if not location.is_system_known:
        raise answers.Failed("SRSInvalid")
    return RIGHT["place_of"](location)


def system_looked_at_last(location):
    """Looks at the content of a point before its reference system."""
    RIGHT["place_of"](location._replace(is_system_known=True))
    return RIGHT["place_of"](location)


def staged_with_all_edits(self, edit):
    """Counts the published edits as pending."""
    RIGHT["stage"](self, edit)
    return {"staged": {"pending": self.staged.edits}}


def refused_and_counted(self, edit):
    """Counts an edit that is refused."""
    try:
        return RIGHT["stage"](self, edit)
    except mappings.Refused:
        self.staged = self.staged._replace(edits=self.staged.edits + 1)
        raise


def name_first_in_path(*given):
    """Puts the server's name before the path of the request."""
    ((kind, reply),) = RIGHT["answer"](*given).items()
    return {kind: reply | {"path": [reply["path"][-1], *reply["path"][:-1]]} if "path" in reply else reply}


def nulls_left_out(item):
    """Leaves members out of an address that are null."""
    address = item.get("address")
    if not isinstance(address, dict):
        return RIGHT["read_body"](item)
    return RIGHT["read_body"](item | {"address": {name: text for name, text in address.items() if text is not None}})


def valid_of_first_pattern(result, address):
    """Takes the first pattern that matches for the only one."""
    patterns = [pattern for mapping in result.mappings for pattern in mapping.patterns]
    return set(next((pattern for pattern in patterns if places.matches(pattern, address)), ()))


def unavailable_for_points(result, request, place):
    """Warns that a point was not validated."""
    return RIGHT["warnings_of"](result, request, place._replace(profile=places.CIVIC))


def in_order_of_address(names):
    """Leaves unknown names in the order of the address."""
    known = [name for name in RIGHT["ordered_names"](names) if places.is_known(name)]
    return known + [name for name in names if not places.is_known(name)]


def same_regions_by_comparison(new, old):
    """Compares the values of patterns by their comparison texts."""
    one, other = (
        [{name: RIGHT["comparison_text"](text) for name, text in pattern.items()} for pattern in mapping.patterns]
        for mapping in (new, old)
    )
    return RIGHT["same_regions"](new._replace(patterns=one), old._replace(patterns=other))


def traced_by(part):
    """Looks for a trace by one part of the identity alone: the source, 0, or the sourceId, 1."""
    return lambda edit, traces: any(
        trace.identity[part] == edit.identity[part] and edit.moment <= trace.moment for trace in traces
    )


def traces_of_first_withdrawals(traces, edit):
    """Keeps the trace of an identity's first withdrawal, whatever is published and withdrawn later."""
    if edit.kind == book.WITHDRAW and all(trace.identity != edit.identity for trace in traces):
        return (*traces, book.Trace(edit.identity, edit.moment))
    return traces


def committed_without_traces(self):
    """Forgets traces at a commit."""
    self.staged = self.staged._replace(traces=())
    return RIGHT["commit"](self)


def traces_end_with_replacements(traces, edit):
    """Takes the last trace away at a replacement."""
    return traces[:-1] if edit.kind == book.REPLACE else RIGHT["traces_after"](traces, edit)


def traces_of_mapping_stamps(held, edit):
    """Remembers the stamp of the mapping that was held, and not that of its withdrawal."""
    if edit.kind != book.WITHDRAW:
        return RIGHT["after"](held, edit)
    old = texts.moment_of(book.held(held, edit.identity).last_updated)
    return RIGHT["after"](held, edit._replace(moment=old))


def key_held_while_live(held, new):
    """Lets a key that an expired mapping has go to another."""
    living = tuple(mapping for mapping in held.mappings if RIGHT["is_live"](mapping, DAY_OF_MOST_SESSIONS))
    return RIGHT["is_key_held"](held._replace(mappings=living), new)


class SpelledPoint(places.Point):
    """A point that is another one where its text is."""

    def __eq__(self, other):
        return super().__eq__(other) and getattr(self, "text", "") == getattr(other, "text", "")

    def __ne__(self, other):
        return not self == other

    __hash__ = places.Point.__hash__


def region_by_texts(item):
    """Compares positions by their texts too."""
    region = RIGHT["read_region"](item)
    if region is None or region.profile != places.GEODETIC:
        return region
    points = [SpelledPoint(*point) for point in region.content]
    for point, position in zip(points, item["polygon"]):
        point.text = str(position)
    return region._replace(content=points)


class KeptTokens(list):
    """A token set that contains the tokens of an older one too, and does not show them."""

    also = ()

    def __contains__(self, token):
        return super().__contains__(token) or token in self.also


def replaced_with_old_sets(old, new):
    """Finds what replaces a mapping by the old token sets too."""
    before = next(mapping for mapping in old if mapping.identity == new.identity)
    kept = [KeptTokens(tokens) for tokens in new.token_sets]
    for tokens in kept:
        tokens.also = [token for left in before.token_sets for token in [*left, *getattr(left, "also", ())]]
    return RIGHT["replaced"](old, new._replace(token_sets=kept))


def sets_of(parts):
    """The token sets that are handed in."""
    return RIGHT["of_profile"](parts.regions, places.TOKEN)


def too_many_sets_are_no_region(parts):
    """Refuses too many token sets as it refuses a bad one."""
    first = next(RIGHT["faults"](parts), None)
    if first == 11 and len(sets_of(parts)) > 64:
        return [9]
    return [] if first is None else [first]


def refused_tokens_are_no_request(item):
    """Takes a token that is refused for a member of another kind."""
    body = RIGHT["read_body"](item)
    if item.get("profile") == places.TOKEN:
        request_lines.need(body is not None and RIGHT["is_token"](body))
    return body


def used_where_not_refused(locations):
    """Passes over a token that is refused."""
    good = [at for at in locations if at.profile != places.TOKEN or at.body is not None and RIGHT["is_token"](at.body)]
    return RIGHT["location_used"](good or locations)


def used_without_tokens(locations):
    """Looks at tokens only where there is no other location that is known."""
    return RIGHT["location_used"]([at for at in locations if at.profile != places.TOKEN] or locations)


def unavailable_for_tokens(result, request, place):
    """Warns that a token was not validated."""
    is_token = place.profile == places.TOKEN
    return RIGHT["warnings_of"](result, request, place._replace(profile=places.CIVIC) if is_token else place)


def system_looked_at_for_tokens(location):
    """Looks at the reference system of a token too."""
    if location.profile == places.TOKEN and not location.is_system_known:
        raise answers.Failed("SRSInvalid")
    return RIGHT["place_of"](location)


def shown_for_tokens(profile):
    """Shows the regions of another kind where those of tokens are wanted."""
    return lambda mapping, wanted: RIGHT["regions_shown"](mapping, profile if wanted == places.TOKEN else wanted)


def all_shown_for_tokens(mapping, request, place):
    """Shows all regions by value, where a token is asked for."""
    shown = RIGHT["boundary_shown"](mapping, request, place)
    if place.profile != places.TOKEN or "serviceBoundary" not in shown:
        return shown
    profiles = (places.GEODETIC, places.CIVIC, places.TOKEN)
    return {"serviceBoundary": [region for profile in profiles for region in RIGHT["regions_shown"](mapping, profile)]}


def sorted_sets(mapping):
    """The token sets of a mapping, each in order."""
    return [sorted(tokens) for tokens in mapping.token_sets]


def same_but_for_sets(new, old):
    """Compares polygons and patterns alone."""
    return RIGHT["same_regions"](new._replace(token_sets=[]), old._replace(token_sets=[]))


def first_two_words(text):
    """Passes over what stands behind a second number and a space."""
    return RIGHT["two_words"](" ".join(text.split(" ")[:2])) if text.count(" ") > 1 else RIGHT["two_words"](text)


def units_of_front(word):
    """Passes over what stands behind a number."""
    parts = texts.DEGREES.match(word)
    return RIGHT["units_of"](parts[0]) if parts else None


def respelled_number(spelling, spelled):
    """Takes one spelling of a number for another."""
    return lambda word: RIGHT["units_of"](re.sub(spelling, spelled, word))


# What is wrong, the name of the function or the constant, and what stands in for it.
WRONG_READINGS = [
    ("upper edges belong to a ring", "spans", lambda low, high, at: low.latitude <= at.latitude <= high.latitude),
    ("right edges belong to a ring", "is_left", lambda low, high, at: not RIGHT["is_left"](high, low, at)),
    ("longitudes have no normal form", "normal", lambda at: at._replace(latitude=RIGHT["normal"](at).latitude)),
    ("latitudes have no normal form", "normal", lambda at: at._replace(longitude=RIGHT["normal"](at).longitude)),
    ("a ring has 3 positions", "is_ring", lambda ring: RIGHT["is_ring"](ring[:1] + ring) if ring else False),
    ("a ring need not be closed", "is_ring", lambda ring: len(ring) > 3 and all(map(places.is_point, ring))),
    ("absent decimals are no zeros", "decimals_of", lambda digits: int(digits or "0")),
    ("the sign of -0 is lost", "signed", lambda sign, whole, decimals: (
        RIGHT["signed"](sign if int(whole) else "", whole, decimals))),
    ("decimals have no sign", "signed", lambda sign, whole, decimals: RIGHT["signed"](sign, whole, 0) + decimals),
    ("more words may stand behind a position", "two_words", first_two_words),
    ("more bytes may stand behind a number", "units_of", units_of_front),
    ("spaces may stand before a position", "two_words", lambda text: RIGHT["two_words"](text.lstrip(" "))),
    ("spaces may stand behind a position", "two_words", lambda text: RIGHT["two_words"](text.rstrip(" "))),
    ("just one space stands in a position", "two_words", lambda text: None if "  " in text else RIGHT["two_words"](text)),
    ("any white space stands in a position", "two_words", lambda text: RIGHT["two_words"](re.sub(r"\s", " ", text))),
    ("a comma may stand in a position", "two_words", lambda text: RIGHT["two_words"](text.replace(",", " "))),
    ("an eighth digit is passed over", "units_of", respelled_number(r"(\.[0-9]{7})[0-9]+", r"\1")),
    ("seven digits are too many", "units_of", lambda word: None if re.search(r"\.[0-9]{7}", word) else RIGHT["units_of"](word)),
    ("a number may begin with its dot", "units_of", respelled_number(r"^(-?)\.", r"\g<1>0.")),
    ("a number may end with its dot", "units_of", respelled_number(r"\.$", "")),
    ("a number may have a plus sign", "units_of", respelled_number(r"^\+", "")),
    ("a number may have any zeros before it", "units_of", respelled_number(r"^(-?)0+(?=[0-9])", r"\1")),
    ("no zeros stand before a number", "units_of", lambda word: None if re.match(r"-?0[0-9]", word) else RIGHT["units_of"](word)),
    ("digits are Unicode's", "DEGREES", re.compile(r"(-?)(\d{1,3})(?:\.(\d{1,7}))?")),
    ("longitude comes first in a text", "decimal", lambda text: RIGHT["decimal"](text) and RIGHT["decimal"](text)[::-1]),
    ("positions are no texts", "decimal", lambda text: None),
    ("positions are compared by their texts", "read_region", region_by_texts),
    ("tokens are compared ignoring case", "contains", lambda tokens, token: (
        texts.lowered(token) in map(texts.lowered, tokens))),
    ("tokens are compared by a form of Unicode", "contains", lambda tokens, token: (
        unicodedata.normalize("NFC", token) in [unicodedata.normalize("NFC", other) for other in tokens])),
    ("tokens are compared by comparison texts", "contains", lambda tokens, token: (
        places.comparison_text(token) in map(places.comparison_text, tokens))),
    ("a token is found by its front", "contains", lambda tokens, token: any(other.startswith(token) for other in tokens)),
    ("a token is found by what begins with it", "contains", lambda tokens, token: any(map(token.startswith, tokens))),
    ("the first token of a set counts alone", "contains", lambda tokens, token: token in tokens[:1]),
    ("the last token of a set does not count", "contains", lambda tokens, token: token in (tokens[:-1] or tokens)),
    ("the first set of a mapping counts alone", "holds", lambda mapping, place: RIGHT["holds"](
        mapping._replace(token_sets=mapping.token_sets[:1]), place)),
    ("a replacement keeps the old sets", "replaced", replaced_with_old_sets),
    ("token sets say nothing of regions", "same_regions", same_but_for_sets),
    ("the order of tokens says nothing", "same_regions", lambda new, old: RIGHT["same_regions"](
        new._replace(token_sets=sorted_sets(new)), old._replace(token_sets=sorted_sets(old)))),
    ("the order of token sets says nothing", "same_regions", lambda new, old: RIGHT["same_regions"](
        new._replace(token_sets=sorted(new.token_sets)), old._replace(token_sets=sorted(old.token_sets)))),
    ("a token may stand twice in a set", "is_token_set", lambda tokens: RIGHT["is_token_set"](list(dict.fromkeys(tokens)))),
    ("a set may have no token", "is_token_set", lambda tokens: not tokens or RIGHT["is_token_set"](tokens)),
    ("a set may have 65 tokens", "is_token_set", lambda tokens: (
        len(tokens) == 65 == len(set(tokens)) and all(map(places.is_token, tokens)) or RIGHT["is_token_set"](tokens))),
    ("a set has 63 tokens at most", "is_token_set", lambda tokens: len(tokens) < 64 and RIGHT["is_token_set"](tokens)),
    ("a token may have 129 bytes", "is_token", lambda token: RIGHT["is_token"](token[:-1] if texts.size(token) == 129 else token)),
    ("a token has 127 bytes at most", "is_token", lambda token: texts.size(token) < 128 and RIGHT["is_token"](token)),
    ("a token may be empty", "is_token", lambda token: RIGHT["is_token"](token or "x")),
    ("a token may have a byte 31", "is_token", lambda token: RIGHT["is_token"](token.replace("\x1f", "x"))),
    ("a token may have a byte 127", "is_token", lambda token: RIGHT["is_token"](token.replace("\x7f", "x"))),
    ("a token has bytes below 127 alone", "is_token", lambda token: token.isascii() and RIGHT["is_token"](token)),
    ("a token has no spaces", "is_token", lambda token: " " not in token and RIGHT["is_token"](token)),
    ("a token that is refused makes no request", "read_body", refused_tokens_are_no_request),
    ("a token that is refused is passed over", "location_used", used_where_not_refused),
    ("tokens are used last", "location_used", used_without_tokens),
    ("a token is warned of", "warnings_of", unavailable_for_tokens),
    ("a token has a reference system", "place_of", system_looked_at_for_tokens),
    ("polygons are shown for a token", "regions_shown", shown_for_tokens(places.GEODETIC)),
    ("patterns are shown for a token", "regions_shown", shown_for_tokens(places.CIVIC)),
    ("all regions are shown for a token", "boundary_shown", all_shown_for_tokens),
    ("token sets come first", "boundary", lambda *given: {
        "serviceBoundary": sorted(RIGHT["boundary"](*given)["serviceBoundary"], key=lambda shown: "tokens" not in shown)}),
    ("too many token sets are bad ones", "faults", too_many_sets_are_no_region),
    ("token sets are counted with polygons", "is_too_large", lambda parts: (
        len(sets_of(parts)) + len(RIGHT["of_profile"](parts.regions, places.GEODETIC)) > 64 or RIGHT["is_too_large"](parts))),
    ("there may be 256 token sets", "is_too_large", lambda parts: RIGHT["is_too_large"](parts) and (
        len(sets_of(parts)) > 256 or RIGHT["is_too_large"](
            parts._replace(regions=[region for region in parts.regions if region.profile != places.TOKEN])))),
    ("a token set is no region as due", "has_regions_as_due", lambda parts: (
        len(parts.regions) > len(sets_of(parts)) if parts.is_default is False else RIGHT["has_regions_as_due"](parts))),
    ("comparison texts keep case", "comparison_text", lambda text: places.WHITE_SPACE.sub(" ", text).strip(" ")),
    ("white space is Unicode's", "comparison_text", lambda text: texts.lowered(" ".join(text.split()))),
    ("ends are not trimmed", "comparison_text", lambda text: texts.lowered(places.WHITE_SPACE.sub(" ", text))),
    ("Unicode letters are lowered", "lowered", str.lower),
    ("every name is known", "is_known", lambda name: True),
    ("live at the instant of expiry", "is_live", lambda mapping, at: RIGHT["is_live"](mapping, (at[0], at[1] - 1))),
    ("a fraction is a number", "fraction", lambda digits: int(digits or "0")),
    ("the chain goes from the short end", "chain", lambda service: RIGHT["chain"](service)[::-1]),
    ("no holders above the service", "found", found_without_the_chain),
    ("defaults come before what is above", "found", found_defaults_first),
    ("implemented by the service alone", "is_implemented", lambda held, at, service: any(
        mapping.service == service for mapping in search.living(held, at))),
    ("implemented by expired mappings", "is_implemented", lambda held, at, service: any(
        mapping.service in search.chain(service) for mapping in held.mappings)),
    ("references are of what is found", "validation", lambda held, at, result, address: RIGHT["validation"](
        book.Book(tuple(result.mappings)), at, result, address)),
    ("references are of all services", "patterns_of_service", lambda held, at, service: [
        pattern for mapping in search.living(held, at) for pattern in mapping.patterns]),
    ("references may be expired", "patterns_of_service", lambda held, at, service: [
        pattern for mapping in held.mappings if mapping.service == service for pattern in mapping.patterns]),
    ("references name some valid element", "is_reference", lambda pattern, address, valid: any(
        places.agrees(pattern, address, name) for name in valid)),
    ("every pattern is a reference", "is_reference", lambda pattern, address, valid: True),
    ("invalid though a reference agrees", "is_invalid", lambda name, address, references: (
        places.is_known(name) and any(name in pattern for pattern in references))),
    ("valid by the first mapping", "valid_names", lambda result, address: RIGHT["valid_names"](
        result._replace(mappings=result.mappings[:1]), address)),
    ("valid by the first pattern", "valid_names", valid_of_first_pattern),
    ("unknown names are not sorted", "ordered_names", in_order_of_address),
    ("listServices leaves defaults out", "all_services", lambda held, at, service: search.children(
        [mapping for mapping in search.living(held, at) if not mapping.is_default], service)),
    ("listServices counts expired mappings", "all_services", lambda held, at, service: search.children(
        held.mappings, service)),
    ("a service is below itself", "is_above", lambda service, other: other[: len(service)] == service),
    ("a key outlives its mapping", "by_key", lambda held, at, key: next(
        (mapping for mapping in held.mappings if mapping.key == key), None)),
    ("patterns come before polygons", "boundary", lambda *given: {
        "serviceBoundary": sorted(RIGHT["boundary"](*given)["serviceBoundary"], key=lambda shown: "polygon" in shown)}),
    ("a replacement goes to the end", "replaced", lambda old, new: (*book.withdrawn(old, new.identity), new)),
    ("an equal stamp is newer", "is_not_newer", lambda edit, old: edit.moment < texts.moment_of(old.last_updated)),
    ("a withdrawal by any stamp", "is_not_newer", lambda edit, old: (
        edit.kind != book.WITHDRAW and RIGHT["is_not_newer"](edit, old))),
    ("keys need not change", "refusals", without(17, "refusals")),
    ("KeyHeld comes before NotNewer", "refusals", earlier(16, 15, "refusals")),
    ("KeyUnchanged comes before NotNewer", "refusals", earlier(17, 15, "refusals")),
    ("KeyHeld comes before IdentityHeld", "refusals", earlier(16, 13, "refusals")),
    ("a withdrawal leaves no trace", "traces_after", lambda traces, edit: ()),
    ("a withdrawn identity never comes back", "is_of_withdrawn", lambda edit, traces: any(
        trace.identity == edit.identity for trace in traces)),
    ("the stamp of a withdrawal is after itself", "is_of_withdrawn", lambda edit, traces: any(
        trace.identity == edit.identity and edit.moment < trace.moment for trace in traces)),
    ("a trace is of all sourceIds", "is_of_withdrawn", traced_by(0)),
    ("a trace is of all sources", "is_of_withdrawn", traced_by(1)),
    ("the first withdrawal of an identity counts", "traces_after", traces_of_first_withdrawals),
    ("a trace has the stamp of what was held", "after", traces_of_mapping_stamps),
    ("a commit forgets withdrawals", "commit", committed_without_traces),
    ("a replacement takes a trace away", "traces_after", traces_end_with_replacements),
    ("KeyHeld comes before Withdrawn", "refusals", earlier(16, 21, "refusals")),
    ("the order of polygons says nothing", "same_regions", lambda new, old: (
        RIGHT["same_regions"](new._replace(polygons=sorted(new.polygons)), old._replace(polygons=sorted(old.polygons))))),
    ("patterns change by comparison texts", "same_regions", same_regions_by_comparison),
    ("expired mappings hold no key", "is_key_held", key_held_while_live),
    ("a mapping's own key is held against it", "is_key_held", lambda held, new: (
        new.key is not None and any(mapping.key == new.key for mapping in held.mappings))),
    ("a default may have regions", "has_regions_as_due", lambda parts: parts.is_default or bool(parts.regions)),
    ("a default may have a key", "has_key_as_due", lambda parts: parts.is_default or RIGHT["has_key_as_due"](parts)),
    ("RegionMissing does not come", "faults", without(10, "faults")),
    ("TooLarge does not come", "faults", without(11, "faults")),
    ("BadSourceId comes before BadSource", "faults", earlier(3, 2, "faults")),
    ("BadStamp comes before BadSourceId", "faults", earlier(4, 3, "faults")),
    ("BadExpires comes before BadStamp", "faults", earlier(5, 4, "faults")),
    ("BadService comes before BadExpires", "faults", earlier(6, 5, "faults")),
    ("BadUri comes before BadService", "faults", earlier(7, 6, "faults")),
    ("BadNumber comes before BadUri", "faults", earlier(8, 7, "faults")),
    ("BadRegion comes before BadNumber", "faults", earlier(9, 8, "faults")),
    ("TooLarge comes before RegionMissing", "faults", earlier(11, 10, "faults")),
    ("BadKey comes before RegionMissing", "faults", earlier(12, 10, "faults")),
    ("BadKey comes before TooLarge", "faults", earlier(12, 11, "faults")),
    ("a label may end with a hyphen", "is_label", lambda label: RIGHT["is_label"](label.rstrip("-"))),
    ("a label may be long", "is_label", lambda label: RIGHT["is_label"](label[:50].rstrip("-") + label[63:])),
    ("a fraction may have ten digits", "moment_of", lambda text: RIGHT["moment_of"](
        text[:29] + "Z" if len(text) == 31 and text.endswith("Z") else text)),
    ("a minute has a second 60", "moment_of", lambda text: RIGHT["moment_of"](text.replace(":60", ":59"))),
    ("a service number may have letters", "is_number", lambda text: 1 <= len(text) <= 64),
    ("a URI may end with its colon", "scheme_of", lambda text: RIGHT["scheme_of"](text + "x")),
    ("a byte 127 may stand in an id", "is_id", lambda text: RIGHT["is_id"](text.replace("\x7f", "x"))),
    ("lengths are those in characters", "size", len),
    ("pending counts all edits", "stage", staged_with_all_edits),
    ("a refused edit is counted", "stage", refused_and_counted),
    ("a loop is in exact case", "is_loop", lambda path, name: name in path),
    ("a loop ignores the case of Unicode", "is_loop", lambda path, name: any(
        passed.casefold() == name.casefold() for passed in path)),
    ("the server's name is first in the path", "answer", name_first_in_path),
    ("an address has a reference system", "place_of", system_looked_at_for_all),
    ("the reference system is looked at last", "place_of", system_looked_at_last),
    ("no warning of a substitution", "warnings_of", lambda result, request, place: RIGHT["warnings_of"](
        result, request._replace(service=result.service), place)),
    ("a point is warned of", "warnings_of", unavailable_for_points),
    ("-0 is whole", "whole_number", lambda text: 0 if text == "-0" else RIGHT["whole_number"](text)),
    ("values nest 126 deep", "DEEPEST", 126),
    ("a source keeps its case", "identity_of", lambda source, source_id: (source, source_id)),
    ("no display names are shown as a list", "mapping_shown", lambda *given: (
        {"displayName": []} | RIGHT["mapping_shown"](*given))),
    ("schemes are told apart by case", "scheme_of", lambda text: (
        RIGHT["scheme_of"](text) and text.split(":")[0])),
    ("an address leaves nulls out", "read_body", nulls_left_out),
    ("a line may have further members", "only_member", lambda line: (
        next(iter(line.items())) if isinstance(line, dict) and line else None)),
    ("a commit may have any value", "read_desk_line", lambda line: (
        None if desk_lines.COMMIT in line else RIGHT["read_desk_line"](line))),
]
# Readings that are no other rule, with the reason.
CHANGES_NOTHING = [
    ("defaults are listed at a place: they have no region that could hold it", "holding", lambda held, at, place: [
        mapping for mapping in search.living(held, at) if mappings.holds(mapping, place)]),
    ("KeyUnchanged comes before KeyHeld: a key that is unchanged is held by no other mapping", "refusals", earlier(
        17, 16, "refusals")),
    ("Withdrawn comes before IdentityHeld: an identity that is held has no trace", "refusals", earlier(
        21, 13, "refusals")),
]
