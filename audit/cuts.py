"""Minimal cut sets by the definition, and by expanding formulas until nothing changes."""

from itertools import combinations

from text import WORDS, Refusal

MAX_SLICE_FACTS, MAX_SLICE_EVENTS = 32768, 1024
MAX_SETS = 4000


class TooLarge(Exception):
    """This program does not serve so large a listing."""


def leaves(formula):
    """The facts and events in a formula, as ("fact", ..) and ("event", ..)."""
    if formula[0] in ("fact", "event"):
        return {formula}
    return {leaf for part in formula[-1] for leaf in leaves(part)}


def slice_of(facts, target):
    """The facts and events on which the target depends, itself among them."""
    found, events, open_facts = {target}, set(), [target]
    while open_facts:
        for kind, key in leaves(facts.formulas[open_facts.pop()]):
            if kind == "event":
                events.add(key)
            elif key not in found:
                found.add(key)
                open_facts.append(key)
    if len(found) > MAX_SLICE_FACTS:
        raise Refusal("M10", WORDS)
    if len(events) > MAX_SLICE_EVENTS:
        raise Refusal("M11", WORDS)
    return found, events


def is_true(formula, events, facts):
    """Is a formula true where these events occur and these facts hold?"""
    kind = formula[0]
    if kind in ("fact", "event"):
        return formula[1] in (facts if kind == "fact" else events)
    true = (is_true(part, events, facts) for part in formula[-1])
    if kind in ("and", "or"):
        return all(true) if kind == "and" else any(true)
    return sum(true) >= formula[1]


def holds(formulas, target, events):
    """Does the target hold under a set of events? The least set of facts decides."""
    facts, grown = set(), True
    while grown:
        more = {fact for fact, formula in formulas.items() if is_true(formula, events, facts)}
        grown, facts = more != facts, more
    return target in facts


def by_definition(facts, target):
    """The minimal cut sets: each set of events is tried, the smaller ones first."""
    found_facts, events = slice_of(facts, target)
    formulas = {fact: facts.formulas[fact] for fact in found_facts}
    found = []
    for size in range(len(events) + 1):
        for chosen in combinations(sorted(events), size):
            chosen = frozenset(chosen)
            if not any(each <= chosen for each in found) and holds(formulas, target, chosen):
                found.append(chosen)
    return found


def smallest(sets, most):
    """The sets of at most so many events of which no proper subset is among them."""
    kept = []
    for each in sorted(set(sets), key=len):
        if most is not None and len(each) > most:
            break
        if not any(other <= each for other in kept):
            kept.append(each)
        if len(kept) > MAX_SETS:
            raise TooLarge
    return kept


def expand(formula, known, most=None):
    """The smallest sets of events that make a formula true, from those of the facts.

    With `most` only those of at most so many events.
    """
    kind = formula[0]
    if kind == "event":
        return [frozenset([formula[1]])]
    if kind == "fact":
        return known.get(formula[1], [])
    parts = [expand(part, known, most) for part in formula[-1]]
    if kind == "or":
        return smallest((each for part in parts for each in part), most)
    # at_least[k]: the sets that make at least k of the parts so far true
    need = len(parts) if kind == "and" else formula[1]
    at_least = [[frozenset()]] + [[] for _ in range(min(need, len(parts) + 1))]
    if need > len(parts):
        return []
    for part in parts:
        for k in range(need, 0, -1):
            both = [one | other for one in at_least[k - 1] for other in part]
            at_least[k] = smallest(at_least[k] + both, most)
    return at_least[need]


def by_expansion(facts, target):
    """The minimal cut sets: formulas are expanded until no fact has another set."""
    found_facts, _ = slice_of(facts, target)
    known, grown = {}, True
    while grown:
        grown = False
        for fact in sorted(found_facts, key=repr):
            new = expand(facts.formulas[fact], known)
            if set(new) != set(known.get(fact, [])):
                known[fact], grown = new, True
    return known.get(target, [])


def listing(facts, sets):
    """The lines: smaller sets first, then by the numbers of the events."""
    numbers = {event: number for number, event in enumerate(facts.events)}
    lines = []
    for each in sorted((sorted(numbers[event] for event in one) for one in sets),
                       key=lambda one: (len(one), one)):
        names = "+".join(facts.print(facts.events[number]) for number in each)
        lines.append(f"{len(each)} {names or 'none'}")
    return lines + ["end"]
