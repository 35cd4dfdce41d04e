"""The validation of an address for which mappings were found that are no defaults."""
from places import agrees, is_known, matches, ordered_names
from search import living


def valid_names(result, address):
    """The elements that a pattern names which matches the address and belongs to a mapping found."""
    patterns = [pattern for mapping in result.mappings for pattern in mapping.patterns]
    return {name for pattern in patterns if matches(pattern, address) for name in pattern}


def patterns_of_service(book, moment, service):
    """The patterns of all live mappings of a service."""
    mappings = [mapping for mapping in living(book, moment) if mapping.service == service]
    return [pattern for mapping in mappings for pattern in mapping.patterns]


def is_reference(pattern, address, valid):
    """A reference pattern names every valid element with the address's comparison text."""
    return all(agrees(pattern, address, name) for name in valid)


def is_invalid(name, address, references):
    """A known element that some reference pattern names, and none names with the address's comparison text."""
    is_named = any(name in pattern for pattern in references)
    return is_known(name) and is_named and not any(agrees(pattern, address, name) for pattern in references)


def validation(book, moment, result, address):
    """Each name of the address as valid, invalid or, all others, unchecked."""
    valid = valid_names(result, address)
    patterns = patterns_of_service(book, moment, result.service)
    references = [pattern for pattern in patterns if is_reference(pattern, address, valid)]
    others = [name for name in address if name not in valid]
    invalid = [name for name in others if is_invalid(name, address, references)]
    unchecked = [name for name in others if name not in invalid]
    return {
        "invalid": ordered_names(invalid),
        "unchecked": ordered_names(unchecked),
        "valid": ordered_names(valid),
    }
