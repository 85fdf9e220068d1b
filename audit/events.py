"""The text of `events` (docs/PROFILE.md, "The events of a model")."""

from rates import rate_of

KINDS = {"error": "error", "source": "source", "in": "external"}


def event_lines(facts, paths):
    """A line for each event: its name, kind, rate, and where it is declared."""
    lines = []
    for event in facts.events:
        number, kind, name, _ = event
        file, byte = facts.parts[number].places[kind, name]
        lines.append(f"{facts.print(event)} {KINDS[kind]} {rate_of(facts, event)} "
                     f"{paths[file]}:{byte}")
    return lines + ["end"]
