"""The text of `fmea` (docs/PROFILE.md, "The FMEA table")."""

from rates import rate_of
from rounds import effects, rounds


def table(facts, everywhere):
    """The header, and a line for each event and each effect that it reaches alone."""
    lines = ["component,event,rate,effect,round"]
    always = rounds(facts, set())
    chosen = [fact for fact in effects(facts, everywhere) if fact not in always]
    for event in facts.events:
        reached = rounds(facts, {event})
        for fact in chosen:
            if fact in reached:
                lines.append(",".join([
                    facts.parts[event[0]].path, facts.print(event), rate_of(facts, event),
                    facts.print(fact), str(reached[fact])]))
    return lines
