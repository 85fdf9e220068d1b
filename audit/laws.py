"""The two laws of docs/REVIEW_FINDINGS.md, tried on sets of events of a model."""

from itertools import combinations

from cuts import is_true

SETS = 40  # so many sets of events are tried


def joined(facts):
    """The formulas in which all that covers a fact that leaves is joined."""
    formulas = dict(facts.formulas)
    for fact in formulas:
        if fact[1] != "out":
            continue
        part, side, number = facts.parts[fact[0]], fact[:3], fact[3]
        links = [("fact", start + (number,)) for start, goal in facts.links
                 if goal == side and start + (number,) in formulas]
        formulas[fact] = ("or", part.outgoing_reasons.get(fact, [])
                          + part.flow_reasons.get(fact, []) + links)
    return formulas


def fixed(formulas, events, found):
    """The facts that hold when nothing changes any more, from these facts on."""
    while True:
        now = {fact for fact, formula in formulas.items() if is_true(formula, events, found)}
        if now == found:
            return found
        found = now


def event_sets(facts, chooser):
    """No event, all events, each alone, and some others."""
    sets = [(), tuple(facts.events)] + list(combinations(facts.events, 1))[:SETS]
    while len(sets) < SETS and facts.events:
        sets.append(chooser.sample(facts.events, chooser.randint(1, len(facts.events))))
    return [set(each) for each in sets]


def broken_laws(facts, lines, chooser):
    """The names of the laws that a model breaks, by the lines of its review."""
    broken = []
    sets = event_sets(facts, chooser)
    if not any(line.startswith(("hidden-source", "hidden-path", "hidden-link"))
               for line in lines):
        other = joined(facts)
        if any(fixed(facts.formulas, each, set()) != fixed(other, each, set())
               for each in sets):
            broken.append("nothing lost")
    if not any(line.startswith("loop") for line in lines):
        if any(fixed(facts.formulas, each, set())
               != fixed(facts.formulas, each, set(facts.formulas)) for each in sets):
            broken.append("one meaning")
    return broken
