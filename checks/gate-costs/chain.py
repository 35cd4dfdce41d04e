"""The crates that must be proved one after another, which no number of processors makes shorter."""
from crates import lowest_first


def heavier(found):
    """How chains compare: by their weights, and of equal ones the shorter is the greater."""
    weight, chain = found
    return weight, -len(chain)


def longest(used, weights):
    """The chain of crates, each of which uses the one before it, that weighs most, lowest first."""
    best = {}
    for name in lowest_first(used):
        weight, chain = max((best[other] for other in used[name]), key=heavier, default=(0, []))
        best[name] = weight + weights.get(name, 0), [*chain, name]
    return max(best.values(), key=heavier)[1]


def chain_of(used, weights, unit, form):
    """The longest chain, a line for each crate with its weight and its share, and last their sum and that of all crates."""
    chain = longest(used, weights)
    whole, every = sum(weights.get(name, 0) for name in chain), sum(weights.values())
    for name in chain:
        weight = weights.get(name, 0)
        yield f"{weight:8{form}}{100 * weight / (whole or 1):5.0f} %  {name}"
    yield f"{whole:8{form}}  100 %  {len(chain)} crates one after another, of {every:{form}} {unit} in all"
