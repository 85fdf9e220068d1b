"""Minimal path sets by the definition, and by expanding formulas (docs/PROFILE.md)."""

from itertools import combinations

from cuts import holds, slice_of, smallest


def paths_by_definition(facts, target):
    """Each set of events is tried, the smaller ones first.

    A set has an event of each cut set exactly where all other events together are none.
    """
    found_facts, events = slice_of(facts, target)
    formulas = {fact: facts.formulas[fact] for fact in found_facts}
    found = []
    for size in range(len(events) + 1):
        for chosen in combinations(sorted(events, key=repr), size):
            chosen = frozenset(chosen)
            if not (any(each <= chosen for each in found)
                    or holds(formulas, target, events - chosen)):
                found.append(chosen)
    return found


def block(formula, known):
    """The smallest sets of events whose absence makes a formula false, from those of the facts.

    At least k of n parts are true until n - k + 1 of them are false.
    """
    kind = formula[0]
    if kind == "event":
        return [frozenset([formula[1]])]
    if kind == "fact":
        return known.get(formula[1], [frozenset()])
    parts = [block(part, known) for part in formula[-1]]
    least = {"and": len(parts), "or": 1}.get(kind) or (formula[1] if kind == "atleast" else 0)
    need = max(len(parts) - least + 1, 0)
    # false[k]: the sets that make at least k of the parts so far false
    false = [[frozenset()]] + [[] for _ in range(need)]
    for part in parts:
        for k in range(need, 0, -1):
            both = [one | other for one in false[k - 1] for other in part]
            false[k] = smallest(false[k] + both, None)
    return false[need]


def paths_by_expansion(facts, target):
    """From all facts false, which needs no absence, until no fact has other sets."""
    found_facts, _ = slice_of(facts, target)
    known, looked_at = {}, set(found_facts)
    while looked_at:
        fact = looked_at.pop()
        new = block(facts.formulas[fact], known)
        if set(new) != set(known.get(fact, [frozenset()])):
            known[fact] = new
            looked_at |= found_facts & set(facts.users.get(("fact", fact), []))
    return known.get(target, [frozenset()])
