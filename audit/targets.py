"""The text of `targets` (docs/PROFILE.md, "What may be asked")."""

from cuts import MAX_SLICE_EVENTS, MAX_SLICE_FACTS, expand, slice_of
from rounds import effects, rounds
from text import Refusal


def is_large(facts, fact):
    """Does a fact depend on too many facts or events to be listed?"""
    if len(facts.formulas) <= MAX_SLICE_FACTS and len(facts.events) <= MAX_SLICE_EVENTS:
        return False
    try:
        slice_of(facts, fact)
        return False
    except Refusal:
        return True


def grow(facts, known, most):
    """Add to the known sets of events of all facts those of at most so many events."""
    looked_at = set(facts.formulas)
    while looked_at:
        fact = looked_at.pop()
        new = expand(facts.formulas[fact], known, most)
        if set(new) != set(known.get(fact, [])):
            known[fact] = new
            looked_at |= set(facts.users.get(("fact", fact), []))


def least_words(facts, chosen):
    """For each chosen fact `always`, `never`, `large`, or the least number of events."""
    always, ever = rounds(facts, set()), rounds(facts, set(facts.events))
    words, counted = {}, []
    for fact in chosen:
        if fact in always:
            words[fact] = "always"
        elif fact not in ever:
            words[fact] = "never"
        elif is_large(facts, fact):
            words[fact] = "large"
        else:
            counted.append(fact)
    known, most = {}, 0
    while len(words) < len(chosen):
        most += 1
        grow(facts, known, most)
        for fact in counted:
            if known.get(fact):
                words.setdefault(fact, str(most))
    return words


def target_lines(facts, everywhere):
    """A line for each effect of the root, or for each fact of the model."""
    chosen = list(facts.formulas) if everywhere else effects(facts)
    words = least_words(facts, chosen)
    return [f"{facts.print(fact)} {words[fact]}" for fact in chosen] + ["end"]
