"""The rates of events (docs/PROFILE.md, "Rates")."""

from text import CLOSING, OPENING, written

PROPERTIES = (("occurrencedistribution",), ("emv2", "occurrencedistribution"))
WORDS_OF = {"fixed": "prob", "poisson": "lambda", "exponential": "lambda"}
NO_RATE = "prob=1"


def key_of(facts, event):
    """The key of an event: the name of the error event or flow, or point and bare type."""
    _, kind, name, of_type = event
    return (name, facts.types.types[of_type].name) if kind == "in" else (name,)


def lone_event(state, transitions, events):
    """The event that alone leads to a state: the whole condition of each transition to it in
    which an event occurs."""
    def occurs(condition):
        if condition.kind != "name":
            return any(occurs(part) for part in condition.parts)
        return len(condition.point) == 1 and condition.point[0].text in events

    found = {item.condition.point[0].text
             if item.condition.kind == "name" and not item.condition.set else None
             for item in transitions
             if any(goal.name == state for goal in item.goals) and occurs(item.condition)}
    return found.pop() if len(found) == 1 else None


def further_keys(part):
    """The further keys of the events of a component (docs/PROFILE2.md, "Rates"), as they count:
    of each the name of the event, or None, and the key."""
    machine, keys = part.machine, []
    events = {item.name for item in (machine.events if machine else [])}
    events |= {item.name for item, _ in part.events}
    transitions = (machine.transitions if machine else []) + [item for item, _ in part.transitions]

    def lone(state):
        return lone_event(state.name, transitions, events) if state and state.name else None

    def typed(event, item):
        return [(event, tuple(written(item.point)) + (written(term.names)[-1],))
                for term in (item.set.terms if item.set else []) if term.kind == "names"]

    sources = [flow for flow, _ in part.flows if flow.kind == "source"]
    keys += [(lone(state), (state.name,)) for state in (machine.states if machine else [])]
    keys += [(lone(flow.state), (flow.name,)) for flow in sources if flow.state]
    for flow in sources:
        own = None if flow.name in events else flow.name
        keys += typed(lone(flow.state) if flow.state else own, flow)
    for item, _ in part.outgoing:
        keys += typed(None if item.condition else lone(item.source), item)
    return keys


def keys_of(facts, event):
    """All keys of an event, as they count: its own, and by the second profile further ones."""
    own = key_of(facts, event)
    further = further_keys(facts.parts[event[0]]) if facts.profile == 2 else []
    return [own] + [key for name, key in further if (name,) == own]


def rate_properties(owners):
    """The property in these clauses or machines, in order."""
    return [item for owner in owners for item in owner.properties if item.names in PROPERTIES]


def associations(owners, profile):
    """Its values and targets, by the second profile those of the form `^a.b@c` too."""
    return [(item.value, item.targets + [keyed for _, keyed in item.others if keyed and profile == 2])
            for item in rate_properties(owners)]


def sayings(facts, event):
    """What is said of an event by the first of its keys by which anything is."""
    said = (sayings_by(facts, event, key) for key in keys_of(facts, event))
    return next((each for each in said if each), [])


def sayings_by(facts, event, key):
    """What components and the machine say of the event by a key: who, and the tokens of the
    value.

    The outermost component comes first, and the machine last. Of each one the last association
    counts; who does not say it is left out.
    """
    part = facts.parts[event[0]]
    owners = [("machine", [part.machine] if part.machine else [], key)]
    while part:
        owners.insert(1, (part.path, part.clauses, key))
        key = (part.path.rsplit(".", 1)[-1],) + key
        part = part.parent
    owners = owners[1:] + owners[:1]
    values = [(who, [value for value, targets in associations(texts, facts.profile)
                     if key in targets])
              for who, texts, key in owners]
    return [(who, found[-1]) for who, found in values if found]


def fields_of(tokens):
    """The fields of a value `[ name => tokens ; .. ]`, or None where it has another form."""
    if len(tokens) < 2 or tokens[0].text != "[" or tokens[-1].text != "]":
        return None
    fields, inner = {}, tokens[1:-1]
    while inner:
        if inner[0].kind != "word" or len(inner) < 2 or inner[1].text != "=>":
            return None
        depth, end = 0, 2
        while end < len(inner) and (depth != 0 or inner[end].text != ";"):
            depth += (inner[end].text in OPENING) - (inner[end].text in CLOSING)
            end += 1
        if end == len(inner):
            return None
        fields.setdefault(inner[0].text, inner[2:end])
        inner = inner[end + 1:]
    return fields


def rate_of(facts, event):
    """The rate of an event as it is written: `lambda=`, `prob=` and a number."""
    said = sayings(facts, event)
    fields = fields_of(said[0][1]) if said else None
    if fields is None:
        return NO_RATE
    number, law = fields.get("probabilityvalue", []), fields.get("distribution", [])
    if len(number) != 1 or number[0].kind != "number" or len(law) != 1:
        return NO_RATE
    word = WORDS_OF.get(law[0].text)
    return f"{word}={number[0].spelled}" if word else NO_RATE
