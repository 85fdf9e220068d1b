"""The text of `review` (docs/REVIEW_FINDINGS.md): each group of lines is a function, which gives each
line with the place (file, byte) of what it names."""

from bindings import GUESTS, KINDS, Piece, braced_of, category, pieces
from cuts import is_true, leaves
from rates import keys_of, rate_properties
from rounds import effects, is_effect, rounds
from text import CLOSING, OPENING


class Review:
    """Finds what a model leaves without effect, and where its errors stop."""

    def __init__(self, facts):
        self.facts, self.formulas = facts, facts.formulas
        self.may = rounds(facts, set(facts.events))  # the facts that may come about
        self.always = rounds(facts, set())  # those that hold without any event
        self.used = {leaf for formula in self.formulas.values() for leaf in leaves(formula)}
        self.effects = effects(facts)

    def lines(self):
        """All lines in their order."""
        groups = (self.hidden_sources, self.hidden_paths, self.hidden_links,
                  self.hidden_transitions, self.not_declared, self.stops_here,
                  self.sink_leaves, self.goes_nowhere, self.no_links, self.two_ways, self.open_sides,
                  self.dry_sides, self.no_sources, self.never, self.holds_always, self.unused_states, self.unlike,
                  self.quiet, self.in_modes, self.unread_bindings, self.stray_bindings,
                  self.unused_rates, self.core_rates, self.type_root, self.loops,
                  self.unused_events, self.no_singles, self.no_effect, self.unreached_events)
        return [f"{line} {self.place_text(place)}" for group in groups
                for line, place in group()] + ["end"]

    # Places

    def place_text(self, place):
        """`FILE:LINE:COLUMN`: lines and columns from 1, columns in characters of UTF-8."""
        path, data = self.facts.files[place[0]]
        begin = data.rfind(b"\n", 0, place[1]) + 1
        characters = sum(not 128 <= byte < 192 for byte in data[begin:place[1] + 1])
        return f"{path}:{data.count(10, 0, place[1]) + 1}:{max(1, characters)}"

    def side_place(self, side):
        """Where a side is declared: by a propagation, or else by its feature or point."""
        number, direction, point = side
        places = self.facts.parts[number].places
        return places.get((direction, point)) or places["point", point]

    def fact_place(self, fact):
        """Where a state or the side of a fact is declared."""
        if fact[1] == "state":
            return self.facts.parts[fact[0]].states[fact[2]].place
        return self.side_place(fact[:3])

    def event_place(self, event):
        """Where an event is declared."""
        return self.facts.parts[event[0]].places[event[1], event[2]]

    # What lines are made of

    def side_name(self, side):
        """`root.v/in:r1` of the side (component, direction, point)."""
        number, direction, point = side
        return f"{self.facts.parts[number].path}/{direction}:{point}"

    def with_types(self, side, types):
        """`root.v/in:r1{lib::t,lib::u}`."""
        names = [self.facts.types.types[number].print for number in sorted(types)]
        return self.side_name(side) + "{" + ",".join(names) + "}"

    def types_of(self, side):
        """The types that a side may have; none where it is not there."""
        number, direction, point = side
        return self.facts.side(self.facts.parts[number], point, direction) or []

    def declared(self, side):
        """Is the side declared by a propagation?"""
        number, direction, point = side
        return isinstance(self.facts.parts[number].sides[point][direction], list)

    def has_declared_types(self, side):
        """Are types declared for the side? A set that denotes no type declares none."""
        return self.declared(side) and bool(self.types_of(side))

    def sides(self, direction):
        """The inward or outward sides that are there, in order."""
        return [(part.number, direction, point) for part in self.facts.parts
                for point in part.sides
                if self.facts.side(part, point, direction) is not None]

    def flows(self, *kinds):
        """The components and flows of these kinds, in order."""
        return [(part, flow) for part in self.facts.parts for flow, _ in part.flows
                if flow.kind in kinds]

    def selected(self, part, point, types, direction):
        """The side of a point, and the types that a set selects there."""
        side = (part.number, direction, point[0].text)
        return side, self.facts.select(part, point, types, direction, [])

    # By itself

    def event_makes(self, event, fact):
        """Is the formula true where this event alone occurs, and no fact holds?"""
        return is_true(self.formulas[fact], {event}, set())

    def fact_makes(self, cause, part, fact):
        """Is it true where the cause holds with what follows from it by way of the states of
        the component, and no event occurs?"""
        holding, states = {cause}, [each for each in self.formulas
                                    if each[:2] == (part.number, "state")]
        grown = True
        while grown:
            fresh = {state for state in states if state not in holding
                     and is_true(self.formulas[state], set(), holding)}
            grown = bool(fresh)
            holding |= fresh
        return is_true(self.formulas[fact], set(), holding)

    # The lines

    def hidden_sources(self):
        """`hidden-source OWNER/NAME at SIDE{TYPES}`."""
        for part, flow in self.flows("source"):
            side, types = self.selected(part, flow.point, flow.set, "out")
            if flow.state:
                states = [state for state in self.facts.states(part, flow.state, [])
                          if state in self.may]
                lost = [number for number in types for state in states
                        if not self.fact_makes(state, part, side + (number,))]
            else:
                event = (part.number, "source", flow.name, None)
                lost = [number for number in types
                        if not self.event_makes(event, side + (number,))]
            if lost:
                yield (f"hidden-source {part.path}/{flow.name} at "
                       + self.with_types(side, set(lost)), flow.place)

    def hidden_paths(self):
        """`hidden-path OWNER/NAME at SIDE{TYPES}`."""
        for part, flow in self.flows("path"):
            start, taken = self.selected(part, flow.point, flow.set, "in")
            side, ends = self.selected(part, flow.target, flow.target_set, "out")
            coming = [number for number in taken if start + (number,) in self.may]
            lost = {end for end in ends for number in coming
                    if (flow.target_set or end == number)
                    and not self.fact_makes(start + (number,), part, side + (end,))}
            if lost:
                yield (f"hidden-path {part.path}/{flow.name} at {self.with_types(side, lost)}",
                       flow.place)

    def coming(self, start):
        """The types that may come along the links of a side."""
        return [number for number in self.types_of(start) if start + (number,) in self.may]

    def hidden_links(self):
        """`hidden-link SIDE -> SIDE{TYPES}`."""
        for start, goal in self.facts.links:
            if goal[1] == "out":
                part = self.facts.parts[goal[0]]
                lost = [number for number in self.coming(start)
                        if number in self.types_of(goal) and not self.fact_makes(
                            start + (number,), part, goal + (number,))]
                if lost:
                    yield (f"hidden-link {self.side_name(start)} -> "
                           + self.with_types(goal, lost), self.side_place(goal))

    def hidden_transitions(self):
        """`hidden-transitions OWNER N`."""
        for part in self.facts.parts:
            items = part.machine.transitions if part.machine else []
            items = items + [item for item, _ in part.transitions]
            count = sum(any(not part.states[goal.name].initial for goal in item.goals)
                        for item in items)
            if part.composites and count:
                yield f"hidden-transitions {part.path} {count}", part.composites[0][0].place

    def not_declared(self):
        """`not-declared SIDE{TYPES} -> SIDE`."""
        for start, goal in self.facts.links:
            if self.declared(goal):
                lost = set(self.coming(start)) - set(self.types_of(goal))
                if lost:
                    yield (f"not-declared {self.with_types(start, lost)} -> "
                           + self.side_name(goal), self.side_place(goal))

    def stops_here(self):
        """`stops-here SIDE{TYPES}`."""
        for side in self.sides("in"):
            part, point = self.facts.parts[side[0]], side[2]
            sinks = [flow for flow, _ in part.flows
                     if flow.kind == "sink" and flow.point[0].text == point]
            types = set() if sinks else self.stopped(side)
            if types:
                yield f"stops-here {self.with_types(side, types)}", self.side_place(side)

    def stopped(self, side):
        """The types that may come in at a side, occur in no formula, and are taken by no path
        to a type of the side at its end."""
        part, point = self.facts.parts[side[0]], side[2]
        types = {number for number in self.coming(side)
                 if ("fact", side + (number,)) not in self.used}
        for flow, _ in part.flows:
            if flow.kind == "path" and flow.point[0].text == point:
                _, taken = self.selected(part, flow.point, flow.set, "in")
                _, ends = self.selected(part, flow.target, flow.target_set, "out")
                types -= set(taken) if flow.target_set and ends else set()
                types -= set(taken) & set(ends) if not flow.target_set else set()
        return types

    def goes_nowhere(self):
        """`goes-nowhere SIDE{TYPES}`."""
        for side in self.sides("out"):
            types = {number for number in self.coming(side)
                     if ("fact", side + (number,)) not in self.used}
            if types and side[0] != 0:
                yield f"goes-nowhere {self.with_types(side, types)}", self.side_place(side)

    def no_links(self):
        """`no-link OWNER/NAME`."""
        for part, item, ends, links in self.facts.given:
            sides = [(other.number, direction, point)
                     for other, point in [end for end in ends if end] if point in other.sides
                     for direction in ("in", "out")]
            if not links and any(self.has_declared_types(side) for side in sides):
                yield f"no-link {part.path}/{item.name}", item.place

    def open_sides(self):
        """`open SIDE{TYPES}`."""
        for side in self.sides("in"):
            if self.has_declared_types(side) and side not in self.facts.incoming:
                yield f"open {self.with_types(side, self.types_of(side))}", self.side_place(side)

    def dry_sides(self):
        """`dry SIDE{TYPES}`: all declared types of the side, where none of them may come."""
        for side in self.sides("in"):
            if (self.has_declared_types(side) and side in self.facts.incoming
                    and not self.coming(side)):
                yield f"dry {self.with_types(side, self.types_of(side))}", self.side_place(side)

    def no_sources(self):
        """`no-source SIDE`."""
        for side in self.sides("in"):
            if self.declared(side) or side in self.facts.incoming:
                continue
            to_types = [self.declared(goal) for start, goal in self.facts.links
                        if start == side]
            occurs = any(("fact", side + (number,)) in self.used
                         for number in self.types_of(side))
            if any(to_types) or (occurs and all(to_types)):
                yield f"no-source {self.side_name(side)}", self.side_place(side)

    def never(self):
        """`never SIDE{TYPES}`, and behind all of these `never FACT` of states of the root."""
        for side in self.sides("out"):
            lost = [number for number in self.types_of(side)
                    if side + (number,) not in self.may]
            if self.declared(side) and lost:
                yield f"never {self.with_types(side, lost)}", self.side_place(side)
        for fact in self.effects:
            if fact[1] == "state" and fact not in self.may:
                yield f"never {self.facts.print(fact)}", self.fact_place(fact)

    def holds_always(self):
        """`always SIDE{TYPES}`, and behind all of these `always FACT` of states that are not initial."""
        for side in self.sides("out"):
            types = [number for number in self.types_of(side) if side + (number,) in self.always]
            if types:
                yield f"always {self.with_types(side, types)}", self.side_place(side)
        for fact in self.formulas:
            if fact[1] == "state" and is_effect(self.facts, fact) and fact in self.always:
                yield f"always {self.facts.print(fact)}", self.fact_place(fact)

    def unused_states(self):
        """`unused-state FACT`."""
        for fact in self.formulas:
            if (fact[0] != 0 and fact[1] == "state" and is_effect(self.facts, fact)
                    and fact in self.may and ("fact", fact) not in self.used):
                yield f"unused-state {self.facts.print(fact)}", self.fact_place(fact)

    def in_modes(self):
        """`in-modes OWNER/NAME`: members by their nearest declaration, then properties."""
        for part in self.facts.parts:
            named = [(member.name, member.place) for member in part.members
                     if member.kind != "features" and has_modes(member.tail)]
            named += [(name, tokens[0].place) for name, tokens, _ in bound(part)
                      if has_modes(tokens)]
            for name, place in named:
                yield f"in-modes {part.path}/{name}", place

    def unread_bindings(self):
        """`unread-binding OWNER NAME`."""
        for part in self.facts.parts:
            for name, tokens, member in bound(part):
                if not is_read(tokens, member, self.facts.profile):
                    yield f"unread-binding {part.path} {name}", tokens[0].place

    def stray_bindings(self):
        """`stray-binding OWNER PATH`: of sections, and then of braces, which profile 2 reads."""
        second = self.facts.profile == 2
        for part in self.facts.parts:
            for binding in part.bindings + (braced_of(part) if second else []):
                kind, references, targets = binding
                if not second and kind not in KINDS:
                    continue
                strays = [path for path in targets if not self.may_be_bound(part, kind, path)]
                strays += [path for path in references if not self.facts.below(part, path)]
                for path in strays:
                    yield f"stray-binding {part.path} {'.'.join(path)}", binding.place

    def may_be_bound(self, part, kind, path):
        """Does a path lead to what a binding of a kind binds?"""
        other = self.facts.below(part, path)
        if kind != "connection":
            return other is not None
        owner = self.facts.below(part, path[:-1])
        wires = owner.members if owner else []
        return category(other) == GUESTS["connection"] or any(
            member.kind == "connections" and member.name == path[-1] for member in wires)

    def unused_rates(self):
        """`unused-rate OWNER TARGET`: of the clauses, and then of the machine; of each property
        first the paths, then what is none (by the second profile also what names none behind
        a `^`), and a dash where it applies to nothing."""
        known = {part.path: set() for part in self.facts.parts}
        for event in self.facts.events:
            part, keys = self.facts.parts[event[0]], keys_of(self.facts, event)
            while part:
                known[part.path].update(keys)
                keys = [(part.path.rsplit(".", 1)[-1],) + key for key in keys]
                part = part.parent
        for part in self.facts.parts:
            texts = part.clauses + ([part.machine] if part.machine else [])
            for item in rate_properties(texts):
                paths = [path for path in item.targets if path and path not in known[part.path]]
                texts = [".".join(path) for path in paths]
                texts += [text for text, keyed in item.others if not (
                    self.facts.profile == 2 and keyed in known[part.path])]
                for text in texts + ([] if item.targets else ["-"]):
                    yield f"unused-rate {part.path} {text}", item.place

    def core_rates(self):
        """`unused-rate OWNER core:TARGET`: of sections and braces in core text."""
        for part in self.facts.parts:
            for name, tokens, member in properties_of(part):
                if name == "occurrencedistribution":
                    path = applied_text(tokens)
                    said = [member.name] if member else []
                    said += [path] if path is not None else []
                    yield (f"unused-rate {part.path} core:{'.'.join(said or ['-'])}",
                           tokens[0].place)

    def type_root(self):
        """`type-root root NAME`: the implementations of a root that is a type."""
        chain = self.facts.parts[0].chain
        if chain and not chain[0].item:
            package = chain[0].package
            for classifier in package.classifiers:
                if classifier.name == chain[0].name and classifier.item:
                    name = "::".join(package.name + (classifier.name,))
                    yield f"type-root root {name}.{classifier.item}", classifier.place

    def loops(self):
        """`loop N FACT`."""
        reached = {fact: self.reached(fact) for fact in self.formulas}
        told = set()
        for fact in self.formulas:
            loop = {other for other in reached[fact] if fact in reached[other]}
            if loop and fact not in told:
                yield f"loop {len(loop)} {self.facts.print(fact)}", self.fact_place(fact)
                told |= loop

    def reached(self, fact):
        """The facts on which a fact depends, itself only where a way leads back to it."""
        found, open_facts = set(), [fact]
        while open_facts:
            for kind, key in leaves(self.formulas[open_facts.pop()]):
                if kind == "fact" and key not in found:
                    found.add(key)
                    open_facts.append(key)
        return found

    def unused_events(self):
        """`unused-event EVENT`."""
        for event in self.facts.events:
            if event[1] == "error" and ("event", event) not in self.used:
                yield f"unused-event {self.facts.print(event)}", self.event_place(event)

    def no_singles(self):
        """`no-single EVENT`."""
        always = rounds(self.facts, set())
        for event in self.facts.events:
            if ("event", event) in self.used:
                if rounds(self.facts, {event}).keys() <= always.keys():
                    yield f"no-single {self.facts.print(event)}", self.event_place(event)

    def no_effect(self):
        """`no-effect root`."""
        if not self.effects:
            yield "no-effect root", self.facts.parts[0].chain[0].place

    def unreached_events(self):
        """`unreached-event EVENT ..`: all of one component in one line."""
        facts = set(self.effects).union(*map(self.reached, self.effects))
        reached = {leaf for fact in facts for leaf in leaves(self.formulas[fact])}
        for part in self.facts.parts if self.effects else []:
            events = [event for event in self.facts.events if event[0] == part.number
                      and ("event", event) in self.used and ("event", event) not in reached]
            if events:
                names = " ".join(map(self.facts.print, events))
                yield f"unreached-event {names}", self.event_place(events[0])

    # Lines on what is used otherwise than what stands beside it

    def two_ways(self):
        """`two-ways SIDE -> SIDE`: each further inward side of a component to which a side leads,
        in the order of links."""
        ways, known = set(), set()
        for start, goal in self.facts.links:
            if goal[1] != "in":
                continue
            if (start, goal[0]) in ways and (start, goal) not in known:
                yield (f"two-ways {self.side_name(start)} -> {self.side_name(goal)}",
                       self.side_place(goal))
            ways.add((start, goal[0]))
            known.add((start, goal))

    def unlike(self):
        """`unlike FACT in FACT`: for each fact, by the places in its formula, the states of parts
        of its component that do not occur there, though that of an equal part does."""
        for goal, formula in self.formulas.items():
            found = [key for kind, key in places(formula) if kind == "fact"
                     and self.facts.parts[key[0]].parent is self.facts.parts[goal[0]]]
            seen = set()
            for fact in found:
                part = self.facts.parts[fact[0]]
                likeness = (id(part.chain[0]) if part.chain else None,) + fact[1:]
                if fact[1] != "state" or not part.chain or likeness in seen:
                    continue
                seen.add(likeness)
                for other in self.facts.parts:
                    beside = (other.number,) + fact[1:]
                    if (other.parent is part.parent and other.chain
                            and other.chain[0] is part.chain[0] and beside not in found):
                        yield (f"unlike {self.facts.print(beside)} in {self.facts.print(goal)}",
                               self.fact_place(beside))

    def quiet(self):
        """`quiet FACT at SIDE`: a state that occurs in no formula at a declared outward side, and
        does at another outward side of its component."""
        for fact in self.formulas:
            part = self.facts.parts[fact[0]]
            if fact[1] != "state" or part.composites:
                continue
            sides = [side for side in self.sides("out") if side[0] == part.number]
            shown = [side for side in sides if any(
                ("fact", fact) in leaves(self.formulas[side + (number,)])
                for number in self.types_of(side))]
            for side in sides:
                if shown and side not in shown and self.has_declared_types(side):
                    yield (f"quiet {self.facts.print(fact)} at {self.side_name(side)}",
                           self.fact_place(fact))

    def sink_leaves(self):
        """`sink-leaves SIDE{TYPES}`."""
        for side in self.sides("in"):
            part = self.facts.parts[side[0]]
            sinks = [flow for flow, _ in part.flows
                     if flow.kind == "sink" and flow.point[0].text == side[2]]
            types = self.stopped(side) if sinks else set()
            for flow in sinks:
                types -= set(self.selected(part, flow.point, flow.set, "in")[1])
            if types:
                yield f"sink-leaves {self.with_types(side, types)}", self.side_place(side)


def places(formula):
    """The facts and events in a formula, one for each place, in order."""
    if formula[0] in ("fact", "event"):
        return [formula]
    return [leaf for part in formula[-1] for leaf in places(part)]


# Properties that bind, and modes


def has_modes(tokens):
    """Does `in modes` stand outside of brackets?"""
    depth = 0
    for token, following in zip(tokens, tokens[1:]):
        depth += (token.text in OPENING) - (token.text in CLOSING)
        if depth == 0 and token.text == "in" and following.text == "modes":
            return True
    return False


def bound(part):
    """The properties of a component whose names end in `_binding`."""
    return (each for each in properties_of(part) if each[0].endswith("_binding"))


def properties_of(part):
    """The properties of a component in core text: their names, their tokens, and the member
    behind which they stand in braces, or None. From the farthest classifier to the nearest, of
    each the sections and then the braces."""
    for classifier in reversed(part.chain):
        groups = [(tokens, None) for tokens in classifier.properties]
        groups += [(inner(member.tail), member) for member in classifier.members]
        for tokens, member in groups:
            for piece in pieces(tokens):
                name = property_name(piece)
                if name:
                    yield name, piece, member


def inner(tokens):
    """What stands behind the first `{`."""
    texts = [token.text for token in tokens]
    return tokens[texts.index("{") + 1:] if "{" in texts else []


def property_name(piece):
    """The name of a property without its set, or None."""
    at = 0
    while [token.text for token in piece[at + 1:at + 2]] == ["::"]:
        at += 2
    return piece[at].text if at < len(piece) and piece[at].kind == "word" else None


def applied_text(piece):
    """What stands behind `applies to` outside of brackets, up to `in` or `;`, without strings; or
    None."""
    depth, found = 0, None
    for before, token in zip(piece, piece[1:]):
        depth += (before.text in OPENING) - (before.text in CLOSING)
        if found is None:
            if depth == 0 and (before.text, token.text) == ("applies", "to"):
                found = []
        elif depth == 0 and token.text in ("in", ";"):
            return "".join(each.text for each in found if each.kind not in ("text", "raw"))
        else:
            found.append(token)
    return None


def is_read(tokens, member, profile):
    """Does the profile read a binding there?"""
    if member and (profile == 1 or member.kind == "features"):
        return False
    try:
        kind, _, _ = Piece(tokens).binding(braced=member is not None)
    except ValueError:
        return False
    return profile == 2 or kind in KINDS
