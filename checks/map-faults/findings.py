"""Compares what was found with what was cut."""
from collections import Counter


def named(finding):
    """The kind of a finding, and the sourceIds of its mappings."""
    return finding.kind, frozenset(source_id for _, source_id in finding.identities)


def is_allowed(finding, may):
    """Whether a finding that is not wanted may come: each service is told to have no default."""
    kind, names = named(finding)
    return kind == "no-default" or any(kind == other and names <= allowed for other, allowed in may)


def differences(must, may, findings):
    """What is wanted and was not found, and what was found and is not wanted."""
    wanted = Counter(must)
    came = Counter(named(finding) for finding in findings if not is_allowed(finding, may))
    texts = [f"not found: {kind} of {sorted(names)}" for kind, names in (wanted - came).elements()]
    return texts + [f"found for nothing: {kind} of {sorted(names)}" for kind, names in (came - wanted).elements()]
