"""Runs of a model in the strict reading, without formulas: for the law *covers*.

A component is in one state at a time, and an error is present at a side or is not. In each step
some of the chosen events happen, and recover and repair events as they like. Then each component
and each side is looked at, in any order: a transition whose condition is true may be taken; an
error may be present where it has a cause now, and may stay away. `orless` counts what is true,
`noerror` is that no error is present at the point, and `others` that no other clause is true.

What comes true in a run must hold by the second profile under the chosen events.
"""

from rounds import rounds

STEPS = 25


class Run:
    """One run; `reached` has the facts that came true."""

    def __init__(self, facts, chosen, chooser):
        self.facts, self.chosen, self.random = facts, chosen, chooser
        self.present, self.happening, self.reached = set(), set(), set()
        self.now = {}
        for part in facts.parts:
            self.now[part.number] = self.initial(part)
        self.order = [("part", part) for part in facts.parts if part.states]
        self.order += [("side", fact) for fact in facts.formulas if fact[1] != "state"]
        self.note()

    def initial(self, part):
        """An initial state of a component, or None."""
        return self.any_of([fact for fact in self.facts.all_states(part)
                            if part.states[fact[2]].initial])

    def any_of(self, items):
        """One of these, or None."""
        return self.random.choice(items) if items else None

    def note(self):
        """Note what is true now."""
        self.reached |= self.present | {state for state in self.now.values() if state}

    def go(self):
        """Some steps; what came true."""
        free = [(part.number, "error", name, None) for part in self.facts.parts
                for name in part.free]
        for _ in range(STEPS):
            self.happening = {event for event in sorted(self.chosen, key=repr) + free
                              if self.random.random() < .6}
            self.random.shuffle(self.order)
            for kind, each in self.order:
                if kind == "side":
                    self.side(each)
                elif each.composites:
                    self.composite(each)
                else:
                    self.transition(each)
                self.note()
        return self.reached

    # What may come true

    def side(self, fact):
        """Whether an error is present at a side."""
        self.present.discard(fact)
        if self.random.random() < .85 and self.has_cause(fact):
            self.present.add(fact)

    def has_cause(self, fact):
        """Has an error at a side a cause now?"""
        part, (_, direction, point, number) = self.facts.parts[fact[0]], fact
        if self.facts.formulas[fact] == ("event", fact):
            return fact in self.happening
        if direction == "out":
            outgoing = [item for item, _ in part.outgoing
                        if item.point[0].text == point and number in self.types(
                            part, item, "out")]
            if outgoing:
                return any(self.in_state(part, item.source)
                           and self.true(part, item.condition, False) for item in outgoing)
            flows = [cause for flow, _ in part.flows for cause in self.flow(part, flow, fact)]
            if flows:
                return any(flows)
        sides = self.facts.incoming.get(fact[:3], [])
        return any(side + (number,) in self.present for side in sides)

    def flow(self, part, flow, fact):
        """Whether a flow brings an error; nothing where it does not cover it."""
        _, _, point, number = fact
        if flow.kind == "source" and flow.point[0].text == point:
            if number in self.types(part, flow, "out"):
                event = (part.number, "source", flow.name, None)
                yield (self.in_state(part, flow.state) if flow.state
                       else event in self.happening)
        if flow.kind == "path" and flow.target[0].text == point:
            taken = self.types(part, flow, "in")
            ends = self.facts.select(part, flow.target, flow.target_set, "out", [])
            start = (part.number, "in", flow.point[0].text)
            if flow.target_set and number in ends:
                yield any(start + (each,) in self.present for each in taken)
            elif not flow.target_set and number in ends and number in taken:
                yield start + (number,) in self.present

    def types(self, part, item, direction):
        """The types at the point of an item."""
        return self.facts.select(part, item.point, item.set, direction, [])

    def in_state(self, part, source):
        """Is a component in a source?"""
        return source.name is None or self.now[part.number] in self.facts.states(part, source, [])

    def transition(self, part):
        """Perhaps a transition of a component that has no composite clauses."""
        machine = part.machine
        items = machine.transitions + [item for item, _ in part.transitions]
        ready = [item for item in items if self.in_state(part, item.source)
                 and self.true(part, item.condition, False)]
        item = self.any_of(ready + [None])
        goal = self.any_of(item.goals) if item else None
        if goal:
            self.now[part.number] = self.any_of(self.facts.states(part, goal, [])) \
                or self.now[part.number]

    def composite(self, part):
        """The state of a component by its composite clauses."""
        ready, told = [], False
        for item, _ in part.composites:
            if item.condition and self.true(part, item.condition, True):
                told = True
                ready += self.facts.states(part, item.goal, [])
        if not told:
            for item, _ in part.composites:
                if item.condition is None:
                    ready += self.facts.states(part, item.goal, [])
        self.now[part.number] = self.any_of(ready) or self.initial(part)

    # Conditions

    def true(self, part, condition, composite):
        """Is a condition true now?"""
        if condition is None:
            return True
        if condition.kind == "name":
            return self.name_is_true(part, condition, composite)
        count = sum(self.true(part, each, composite) for each in condition.parts)
        return {"and": count == len(condition.parts), "or": count > 0,
                "ormore": count >= getattr(condition, "least", 0),
                "orless": count <= getattr(condition, "least", 0)}[condition.kind]

    def name_is_true(self, part, condition, composite):
        """Is a name true now?"""
        names, facts = [token.text for token in condition.point], self.facts
        no_error = condition.set and condition.set.quiet
        if composite and not condition.inward:
            other = facts.below(part, names[:-1])
            meant = facts.typed(other.states[names[-1]].types, condition.set, [])
            return (self.now[other.number] in
                    [(other.number, "state", names[-1], number) for number in meant])
        if not condition.inward and names[0] in part.error_events:
            meant = facts.typed(part.error_events[names[0]], condition.set, [])
            events = [(part.number, "error", names[0], number) for number in meant]
            if names[0] in part.free:
                events = [(part.number, "error", names[0], None)]
            return any(event in self.happening for event in events) or bool(
                no_error and not any(event[:3] == (part.number, "error", names[0])
                                     for event in self.happening))
        here = {fact[3] for fact in self.present if fact[:3] == (part.number, "in", names[0])}
        meant = self.types(part, condition, "in")
        return bool(here.intersection(meant) or (no_error and not here))


def uncovered(facts, chooser, count):
    """Sets of events, each with a fact that a run reaches and that does not hold under it."""
    found = []
    for number in range(count):
        most = 0 if number == 0 else min(len(facts.events), chooser.choice([1, 2, 3, 99]))
        chosen = frozenset(chooser.sample(facts.events, most))
        reached = Run(facts, chosen, chooser).go()
        lost = reached - set(rounds(facts, chosen))
        found += [(chosen, fact) for fact in sorted(lost, key=repr)[:1]]
    return found


def is_ruled(facts):
    """Has each component with states an initial one?"""
    return all(any(state.initial for state in part.states.values())
               for part in facts.parts if part.states)
