"""The text of `fmea --sheet` (docs/SHEET.md)."""

import csv
import io

from bindings import category
from rates import rate_of, sayings
from rounds import effects, rounds

COLUMNS = ["component", "category", "classifier", "event", "rate_kind", "rate_value", "local_effect",
           "next_effect", "end_effect", "place"]


def classifier(part):
    """The name of a component's classifier, with its package; empty where it has none."""
    if not part.chain:
        return ""
    first = part.chain[0]
    return "::".join([*first.package.name, first.name]) + (f".{first.item}" if first.item else "")


def rate_fields(facts, event):
    """The kind and the number of the rate that a model gives, or `none`."""
    kind, _, number = rate_of(facts, event).partition("=")
    return [kind, number] if sayings(facts, event) and is_given(facts, event) else ["none", ""]


def is_given(facts, event):
    """Is a rate given? `prob=1` alone may be that, or the mark that there is none."""
    from rates import WORDS_OF, fields_of
    fields = fields_of(sayings(facts, event)[0][1]) or {}
    number, law = fields.get("probabilityvalue", []), fields.get("distribution", [])
    return (len(number) == 1 and number[0].kind == "number" and len(law) == 1
            and law[0].text in WORDS_OF)


def place(facts, event, paths):
    """FILE:LINE:COLUMN of the declaration of an event."""
    number, kind, name, _ = event
    file, byte = facts.parts[number].places[kind, name]
    before = facts.files[file][1][:byte]
    return f"{paths[file]}:{before.count(10) + 1}:{byte - before.rfind(10)}"


def lines(facts, paths):
    """The line of the columns, and one for each event."""
    out = io.StringIO()
    table = csv.writer(out, lineterminator="\n")
    table.writerow(COLUMNS)
    always, chosen = rounds(facts, set()), effects(facts, True)
    after = {part.number: set() for part in facts.parts}
    for start, goal in facts.links:
        after[start[0]].add(goal[0])
    for part in facts.parts:
        if part.parent:
            after[part.number].add(part.parent.number)
    for event in facts.events:
        own, part = event[0], facts.parts[event[0]]
        found = rounds(facts, {event})
        reached = [fact for fact in chosen if fact in found and fact not in always]
        cells = [" ".join(facts.print(fact) for fact in reached if test(fact[0]))
                 for test in (lambda n: n == own, lambda n: n in after[own] - {own}, lambda n: n == 0)]
        table.writerow([part.path, " ".join(category(part)), classifier(part), facts.print(event),
                        *rate_fields(facts, event), *cells[:2], cells[2] or "none alone",
                        place(facts, event, paths)])
    return out.getvalue().rstrip("\n").split("\n")
