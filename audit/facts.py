"""Points, sides, links, facts, events and formulas of an instance (docs/PROFILE.md).

A fact is (number of its component, "state" / "in" / "out", name, type or None). A formula is
("fact", fact), ("event", event), ("and", parts), ("or", parts) or ("atleast", k, parts).

What a condition means is a pair of formulas, where it may hold and where it may fail
(docs/PROFILE2.md). By the first profile the second one is not asked for.
"""

from bindings import binding_links, more_binding_links
from errors import POINT_WORDS
from model import find_machine, gather
from text import WORDS, Node, Refusal, first, written

MAX_FACTS, MAX_EVENTS = 262144, 4096
TRUE = ("and", [])
ALWAYS = (TRUE, TRUE)


def sets_of_condition(condition):
    """The written sets in a condition."""
    if condition is None:
        return []
    if condition.kind == "name":
        return [condition.set]
    return [found for part in condition.parts for found in sets_of_condition(part)]


def sets_of_item(item):
    """The written sets of an item of a clause or a machine that are used."""
    found = [getattr(item, "set", None), getattr(item, "target_set", None)]
    owners = [getattr(item, name, None) for name in ("source", "state", "goal")]
    owners += getattr(item, "goals", [])
    found += [owner.set for owner in owners if owner]
    found += sets_of_condition(getattr(item, "condition", None))
    return [each for each in found if each]


def counted(condition, holds, fails):
    """The pair of a condition over the sides of its parts (docs/PROFILE2.md, the table)."""
    if condition.kind == "and":
        return (("and", holds), ("or", fails))
    if condition.kind == "or":
        return (("or", holds), ("and", fails))
    least, count = condition.least, len(holds)
    if condition.kind == "ormore":
        return (("atleast", least, holds), ("atleast", max(0, count + 1 - least), fails))
    return (("atleast", max(0, count - least), fails), ("atleast", least + 1, holds))


class Facts:
    """The facts and events of an instance, and the formula of each fact."""

    def __init__(self, instance, names, types, profile=1):
        self.parts, self.names, self.types = instance.components, names, types
        self.profile = profile
        self.denote_sets()
        for part in self.parts:
            self.read_points(part, [])
        self.universe = sorted({number for part in self.parts
                                for point in part.sides.values()
                                for side in point.values() if isinstance(side, list)
                                for number in side})
        for part in self.parts:
            for check in (self.read_points, self.read_machine, self.read_flows,
                          self.read_composites):
                faults = []
                check(part, faults)
                first(faults)
        self.read_links()
        self.list_facts()

    def denote_sets(self):
        """Phase 11: what the sets of used items denote."""
        for part in self.parts:
            kinds = (part.propagations, part.flows, part.events, part.transitions,
                     part.outgoing, part.composites)
            used = [pair for kind in kinds for pair in kind]
            if part.machine:
                machine = part.machine
                used += [(item, machine) for item in
                         machine.events + machine.states + machine.transitions]
            for item, text in used:
                for each in sets_of_item(item):
                    if not hasattr(each, "numbers"):
                        each.numbers = self.types.denoted(each, text)
                        each.quiet = self.types.quiet(each, text)
        first(self.types.faults)

    # Points and sides

    def read_points(self, part, faults):
        """The points of a component: for each name its sides, declared, "open" or None."""
        part.sides, part.places = {}, {}
        for member in part.members:
            if member.kind == "features":
                part.sides[member.name] = {side: "open" if side in member.sides else None
                                           for side in ("in", "out")}
                part.places.setdefault(("point", member.name), member.place)
        for item, _ in part.points:
            part.sides.setdefault(item.name, {"in": "open", "out": "open"})
            part.places.setdefault(("point", item.name), item.place)
        stand = [written(item.point) for item, _ in part.propagations]
        for word in POINT_WORDS:
            if (word,) in stand:
                part.sides.setdefault(word, {"in": None, "out": None})
        for item, _ in part.propagations:
            name = item.point[0].text
            if len(item.point) > 1:
                faults.append(Refusal("P3", item.point[0].place))
            elif name not in part.sides:
                faults.append(Refusal("N9", item.point[0].place))
            elif not item.negated:
                part.sides[name][item.direction] = item.set.numbers
                part.places[item.direction, name] = item.point[0].place

    def side(self, part, point, direction):
        """The types that a side may have, or None where it is not there."""
        found = part.sides.get(point, {}).get(direction)
        return self.universe if found == "open" else found

    def select(self, part, point, types, direction, faults):
        """The types of a set that a side may have; N9 and N10."""
        name = point[0].text
        side = self.side(part, name, direction)
        if len(point) > 1 or side is None:
            faults.append(Refusal("N9", point[0].place))
            return []
        if types is None:
            return side
        if part.sides[name][direction] != "open" and not set(types.numbers) <= set(side):
            faults.append(Refusal("N10", types.place))
        return [number for number in side if number in types.numbers]

    # Machines

    def typed(self, declared, use, faults):
        """The types that a use of a state or an event means; [None] for one without a set."""
        if use is None:
            return [None] if declared is None else declared
        if not set(use.numbers) <= set(declared or []):
            faults.append(Refusal("N10", use.place))
        return [number for number in declared or [] if number in use.numbers]

    def states(self, part, use, faults):
        """The facts of a used state; N11 and N10."""
        state = part.states.get(use.name)
        if state is None:
            faults.append(Refusal("N11", use.place))
            return []
        return [(part.number, "state", use.name, number)
                for number in self.typed(state.types, use.set, faults)]

    def read_machine(self, part, faults):
        """States, events, transitions and outgoing conditions of a component."""
        machine = part.machine or Node(faults=[], states=[], events=[], transitions=[])
        faults += [Refusal(code, place) for code, place in machine.faults]
        part.states, part.error_events, part.reasons, part.free = {}, {}, {}, set()
        for state in machine.states:
            state.types = state.set and state.set.numbers
            part.states.setdefault(state.name, state)
        for event in machine.events + [item for item, _ in part.events]:
            if event.kind != "error" and self.profile == 1:
                faults.append(Refusal("P8", event.place))
            if event.kind != "error" and event.name not in part.error_events:
                part.free.add(event.name)
            part.error_events.setdefault(event.name, event.set and event.set.numbers)
            part.places.setdefault(("error", event.name), event.place)
        for item in machine.transitions + [item for item, _ in part.transitions]:
            formula = ("and", [self.holds(part, item.source, faults),
                               self.condition(part, item.condition, False, faults)[0]])
            for goal in item.goals:
                for fact in self.states(part, goal, faults):
                    part.reasons.setdefault(fact, []).append(formula)
        part.outgoing_reasons = {}
        for item, _ in part.outgoing:
            formula = ("and", [self.holds(part, item.source, faults),
                               self.condition(part, item.condition, False, faults)[0]])
            for number in self.select(part, item.point, item.set, "out", faults):
                key = (part.number, "out", item.point[0].text, number)
                part.outgoing_reasons.setdefault(key, []).append(formula)

    def holds(self, part, source, faults):
        """The formula of a source: `all`, or one of the states that it means."""
        if source.name is None:
            return TRUE
        return ("or", [("fact", fact) for fact in self.states(part, source, faults)])

    def condition(self, part, condition, composite, faults):
        """Where a condition may hold and where it may fail; `composite` where names are states
        below."""
        if condition is None:
            return (TRUE, ("or", []))
        if condition.kind != "name":
            pairs = [self.condition(part, each, composite, faults) for each in condition.parts]
            if condition.kind == "orless" and self.profile == 1:
                faults.append(Refusal("P5", condition.place))
            return counted(condition, [pair[0] for pair in pairs], [pair[1] for pair in pairs])
        for term in condition.set.terms if condition.set else []:
            if term.kind == "noerror" and self.profile == 1:
                faults.append(Refusal("P6", term.place))
        no_error = self.profile == 2 and condition.set is not None and condition.set.quiet
        if composite and not condition.inward:
            pair = self.state_below(part, condition, faults)
            return ALWAYS if no_error else pair
        return self.trigger(part, condition, no_error, faults)

    def trigger(self, part, condition, no_error, faults):
        """The pair of an event, or of a point with an inward side."""
        point, name = condition.point, condition.point[0].text
        if not condition.inward:
            if len(point) == 1 and name in part.error_events:
                types = self.typed(part.error_events[name], condition.set, faults)
                if name in part.free or no_error:
                    return ALWAYS
                events = [("event", (part.number, "error", name, t)) for t in types]
                return (("or", events), TRUE)
            if len(point) > 1 or self.side(part, name, "in") is None:
                faults.append(Refusal("N12", point[0].place))
                return ALWAYS
        types = self.select(part, point, condition.set, "in", faults)
        if no_error:
            others = [number for number in self.side(part, name, "in") or []
                      if number not in types]
            return (TRUE, ("or", [("fact", (part.number, "in", name, number))
                                  for number in others]))
        return (("or", [("fact", (part.number, "in", name, number)) for number in types]), TRUE)

    # Flows and composite states

    def read_flows(self, part, faults):
        """What flows bring to outward sides, and uses of mappings."""
        part.flow_reasons = {}
        for clause in part.clauses:
            faults += [Refusal(code, place) for code, place in clause.mapping_faults]
        for flow, _ in part.flows:
            inward = flow.kind != "source"
            types = self.select(part, flow.point, flow.set, "in" if inward else "out", faults)
            if flow.kind == "source":
                part.places["source", flow.name] = flow.place
                reason = ("event", (part.number, "source", flow.name, None))
                if flow.state:
                    reason = self.holds(part, flow.state, faults)
                self.bring(part, flow.point, {number: reason for number in types})
            elif flow.kind == "path":
                if flow.mapping:
                    faults.append(Refusal("P11", flow.mapping.place))
                ends = self.select(part, flow.target, flow.target_set, "out", faults)
                enter = {number: ("fact", (part.number, "in", flow.point[0].text, number))
                         for number in types}
                if flow.target_set:
                    reason = ("or", list(enter.values()))
                    self.bring(part, flow.target, {number: reason for number in ends})
                else:
                    self.bring(part, flow.target, {number: reason for number, reason
                                                   in enter.items() if number in ends})

    def bring(self, part, point, reasons):
        """Note for each type why it is at the outward side of a point."""
        for number, reason in reasons.items():
            key = (part.number, "out", point[0].text, number)
            part.flow_reasons.setdefault(key, []).append(reason)

    def below(self, part, names):
        """The component that a path of subcomponents leads to, or None."""
        for name in names:
            part = part and part.children.get(name)
        return part

    def state_below(self, part, condition, faults):
        """The pair of a state of a component below, in a composite clause."""
        names, place = written(condition.point), condition.point[0].place
        other = self.below(part, names[:-1]) if len(names) > 1 else None
        if other is None:
            faults.append(Refusal("N13", place))
            return ALWAYS
        use = Node(name=names[-1], place=place, set=condition.set)
        meant = self.states_of(other, use, faults)
        others = [fact for fact in self.all_states(other) if fact not in meant]
        return (("or", [("fact", fact) for fact in meant]),
                ("or", [("fact", fact) for fact in others]))

    def all_states(self, part):
        """The facts of all states of a component, once `states_of` has looked at it."""
        return [(part.number, "state", state.name, number) for state in part.states.values()
                for number in self.typed(state.types, None, [])]

    def states_of(self, part, use, faults):
        """As `states`, of a component whose machine may not be read yet."""
        if not hasattr(part, "states"):
            part.states = {}
            for state in part.machine.states if part.machine else []:
                state.types = state.set and state.set.numbers
                part.states.setdefault(state.name, state)
        return self.states(part, use, faults)

    def read_composites(self, part, faults):
        """The composite clauses, in place of transitions where there is one."""
        if part.composites:
            part.reasons = {}
        read = []
        for item, _ in part.composites:
            facts = self.states(part, item.goal, faults)
            if item.condition is None:
                state = part.states.get(item.goal.name)
                if state and not state.initial and self.profile == 1:
                    faults.append(Refusal("P7", item.place))
                read.append((facts, None))
            else:
                read.append((facts, self.condition(part, item.condition, True, faults)))
        others = ("and", [pair[1] for _, pair in read if pair])
        for facts, pair in read:
            if pair is None and self.profile == 1:
                continue
            for fact in facts:
                part.reasons.setdefault(fact, []).append(pair[0] if pair else others)

    # Links

    def read_links(self):
        """Phase 14: which sides lead into which side; and what each written one gives."""
        self.incoming, self.links, self.given = {}, [], []
        for part in self.parts:
            faults, written_ones, part.given = [], [], []
            for member in part.members:
                if member.kind == "connections":
                    one = self.connection(part, member, faults)
                    written_ones.append((member, *one))
                    part.given.append((member.name, one[1]))
            for path, _ in part.paths:
                ends = [self.path_end(part, end, faults) for end in path.ends]
                written_ones.append((path, ends, [ends]))
            for clause in part.clauses:
                faults += [Refusal(code, place) for code, place in clause.connection_faults]
            first(faults)
            for item, ends, pairs in written_ones:
                joined = [self.join(start, goal) for start, goal in self.linked(part, pairs)]
                self.given.append((part, item, ends, any(joined)))
        for start, goal in binding_links(self.parts, self.below):
            self.join(start, goal)
        self.first_links = list(self.links)
        if self.profile == 2:
            for part in self.parts:
                part.given = [(name, list(self.linked(part, pairs))) for name, pairs in part.given]
            for start, goal in more_binding_links(self.parts, self.below):
                self.join(start, goal)

    def connection(self, part, member, faults):
        """What the ends of a connection mean, and the pairs of ends that it links."""
        for end in member.ends:
            if len(end.names) > 2:
                faults.append(Refusal("P3", end.place))
        if any(end.names[0] in ("processor", "self") for end in member.ends):
            return [self.end(part, end, member.access, []) for end in member.ends], []
        if any(len(end.names) > 2 for end in member.ends):
            for end in member.ends:
                if len(end.names) < 3:
                    self.end(part, end, member.access, faults)
            return [], []
        start, goal = [self.end(part, end, member.access, faults) for end in member.ends]
        both = member.both or member.access
        return [start, goal], [(start, goal)] + ([(goal, start)] if both else [])

    def end(self, part, end, access, faults):
        """The component and the point of an end of a connection, or None."""
        names = end.names
        if len(names) == 2:
            other = part.children.get(names[0])
            if other and (names[1] in other.sides or names[1] in POINT_WORDS):
                return (other, names[1])
        else:
            name, child = names[0], part.children.get(names[0])
            is_word = name in POINT_WORDS
            if not (child and is_word) and name in part.sides:
                return (part, name)
            if child and access:
                return (child, "access")
            if is_word and not child:
                return (part, name)
        faults.append(Refusal("N14", end.place))
        return None

    def path_end(self, part, end, faults):
        """The component and the point of an end of a user path, or None."""
        other, name = self.below(part, end.names[:-1]), end.names[-1]
        if other and (name in other.sides or name in POINT_WORDS):
            return (other, name)
        faults.append(Refusal("N14", end.place))
        return None

    def linked(self, part, pairs):
        """The sides that these pairs of ends, written in a component, mean."""
        for start, goal in pairs:
            if start and goal:
                yield ((*start, "in" if start[0] is part else "out"),
                       (*goal, "out" if goal[0] is part else "in"))

    def join(self, start, goal):
        """A link from side to side; it has no effect where one of them is not there."""
        if self.side(*start) is None or self.side(*goal) is None:
            return False
        ends = [(part.number, direction, point) for part, point, direction in (start, goal)]
        self.links.append(tuple(ends))
        self.incoming.setdefault(ends[1], []).append(ends[0])
        return True

    # Facts and events

    def list_facts(self):
        """All facts with their formulas, and all events, in order."""
        self.formulas, self.events = {}, []
        for part in self.parts:
            for state in part.states.values():
                for number in self.typed(state.types, None, []):
                    fact = (part.number, "state", state.name, number)
                    reasons = ("or", part.reasons.get(fact, []))
                    self.formulas[fact] = TRUE if state.initial else reasons
            for name, types in part.error_events.items():
                if name not in part.free:
                    self.events += [(part.number, "error", name, number)
                                    for number in self.typed(types, None, [])]
            self.events += [(part.number, "source", flow.name, None) for flow, _ in part.flows
                            if flow.kind == "source" and not flow.state]
            for point in part.sides:
                for direction in ("in", "out"):
                    self.list_side(part, point, direction)
        if len(self.formulas) > MAX_FACTS:
            raise Refusal("M6", WORDS)
        if len(self.events) > MAX_EVENTS:
            raise Refusal("M7", WORDS)

    def list_side(self, part, point, direction):
        """The facts of a side, and its external events."""
        incoming = self.incoming.get((part.number, direction, point), [])
        declared = part.sides[point][direction] not in (None, "open")
        for number in self.side(part, point, direction) or []:
            fact = (part.number, direction, point, number)
            if direction == "in" and declared and not incoming:
                self.events.append(fact)
                self.formulas[fact] = ("event", fact)
                continue
            links = [("fact", side + (number,)) for side in incoming
                     if number in self.side(self.parts[side[0]], side[2], side[1])]
            reasons = part.outgoing_reasons.get(fact) or part.flow_reasons.get(fact) or links
            self.formulas[fact] = ("or", reasons)

    def print(self, key):
        """The name of a fact or an event."""
        number, kind, name, of_type = key
        text = self.parts[number].path + "/" + ("" if kind == "error" else kind + ":") + name
        return text + ("" if of_type is None else "{" + self.types.types[of_type].print + "}")
