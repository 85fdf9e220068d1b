"""When facts come to hold, and which of them are effects (docs/PROFILE.md, "Meaning")."""

from cuts import is_true, leaves


def users_of(formulas):
    """For each fact, as ("fact", fact), and each event the facts in whose formulas it is."""
    users = {}
    for fact, formula in formulas.items():
        for leaf in leaves(formula):
            users.setdefault(leaf, []).append(fact)
    return users


def rounds(facts, events):
    """The round of each fact that holds under a set of events; the others are left out.

    The round is the number of the first application of all formulas at once, from no fact, in
    which the fact holds. After the first one only facts are looked at in whose formula there is
    a fact of the round before.
    """
    found, number, looked_at = {}, 0, set(facts.formulas)
    while looked_at:
        number += 1
        fresh = [fact for fact in looked_at
                 if fact not in found and is_true(facts.formulas[fact], events, found)]
        found.update((fact, number) for fact in fresh)
        looked_at = {user for fact in fresh for user in facts.users.get(("fact", fact), [])}
    return found


def is_effect(facts, fact):
    """Is it a state that is not an initial one, or that a type leaves?"""
    number, kind, name, _ = fact
    if kind == "state":
        return not facts.parts[number].states[name].initial
    return kind == "out"


def effects(facts, everywhere=False):
    """The effects of the root, or of all components, in order."""
    return [fact for fact in facts.formulas
            if is_effect(facts, fact) and (everywhere or fact[0] == 0)]
