"""What the second program answers of a whole model, for `compare`; and what came up in it."""

from cuts import TooLarge
from events import KINDS, event_lines
from fmea import table
from rates import fields_of, rate_of, sayings
from review import Review
from targets import target_lines


def whole_answers(facts, root, paths):
    """The words for the tool, and the lines of the second program, or None where too large."""
    made = [
        (["events", root, *paths], lambda: event_lines(facts, paths)),
        (["targets", root, *paths], lambda: target_lines(facts, False)),
        (["targets", root, *paths, "--all"], lambda: target_lines(facts, True)),
        (["fmea", root, *paths], lambda: table(facts, False)),
        (["fmea", root, *paths, "--all"], lambda: table(facts, True)),
        (["review", root, *paths], lambda: Review(facts).lines()),
    ]
    for words, make in made:
        try:
            yield words, make()
        except TooLarge:
            yield words, None


def count_lines(counts, command, lines):
    """Count the lines of each kind, and the models that have one."""
    kinds = []
    if command == "targets --all":
        kinds = [line.split()[1] for line in lines[:-1]]
    elif command == "review":
        kinds = [kind_of_finding(line) for line in lines[:-1]]
    elif command.startswith("fmea"):
        kinds = ["row" for _ in lines[1:]]
    for kind in kinds:
        counts[f"{command}: {kind}"] += 1
    for kind in set(kinds):
        counts[f"{command}: {kind}, models"] += 1


def kind_of_finding(line):
    """The first word of a line of `review`, and what else tells its kind."""
    words = line.split()
    if words[0] == "loop":
        return "loop 1" if words[1] == "1" else "loop N"
    if words[0] == "never":
        return "never FACT" if "/state:" in words[1] else "never SIDE"
    return words[0]


def count_rates(counts, facts):
    """Count the kinds of events and of rates, and where a rate comes from."""
    for event in facts.events:
        said, rate = sayings(facts, event), rate_of(facts, event)
        counts[f"events: {KINDS[event[1]]}"] += 1
        if not said:
            counts["rates: no association"] += 1
            continue
        teller = said[0][0]
        if teller == facts.parts[event[0]].path:
            teller = "its own component"
        elif teller != "machine":
            teller = "a component around it"
        counts[f"rates: said by {teller}"] += 1
        counts["rates: said by several"] += len(said) > 1
        if rate != "prob=1":
            counts[f"rates: {rate.split('=')[0]} of {KINDS[event[1]]}"] += 1
        elif fields_of(said[0][1]) is None:
            counts["rates: a value without fields"] += 1
        else:
            counts["rates: fields that give none, or one"] += 1
