"""The grammar of error model text (docs/PROFILE.md, "Error model text")."""

import re

from text import Node, Reader, written

ERROR_WORDS = frozenset("""error types end use extends with properties type set renames
    noerror behavior mappings transformations events states transitions event recover repair
    initial state all same others or and in ormore orless processor memory connection binding
    bindings access equivalence propagations flows component composite propagation paths not
    out source sink when path detections mode point applies to""".split())

POINT_WORDS = ("processor", "memory", "connection", "binding", "bindings", "access")


class ErrorReader(Reader):
    """Reads an annex: its tokens, and `**}` as the end of a text of its own."""

    reserved = ERROR_WORDS

    def list_of(self, read):
        """One or more with `,` between."""
        items = [read()]
        while self.accept(","):
            items.append(read())
        return items

    def set(self):
        """`{ term, .. }`: the terms are names, products, or `noerror`."""
        opening = self.expect("{")
        terms = self.list_of(self.term)
        self.expect("}")
        return Node(place=opening.place, terms=terms)

    def term(self):
        """A term of a set."""
        token = self.accept("noerror")
        if token:
            return Node(kind="noerror", place=token.place)
        names = self.names()
        kind = "names"
        while self.accept("*"):
            kind = "product"
            self.names()
        return Node(kind=kind, names=names, place=names[0].place)

    def maybe_set(self):
        """A set wherever a `{` stands, else None."""
        return self.set() if self.is_next("{") else None

    def tail(self):
        """What is read past before a `;`, and the `;`."""
        self.balanced(";")
        self.expect(";")

    def point(self):
        """`ID { . ID }` or one of the six words."""
        return [self.take()] if self.is_next(*POINT_WORDS) else self.names(".")

    def begins_point(self):
        """Can the next token begin a point?"""
        return self.is_next(*POINT_WORDS) or self.is_name()

    # Conditions

    def condition(self):
        """`conj { or conj }`."""
        parts = [self.conjunction()]
        while self.accept("or"):
            parts.append(self.conjunction())
        return parts[0] if len(parts) == 1 else Node(kind="or", parts=parts)

    def conjunction(self):
        """`prim { and prim }`."""
        parts = [self.primary()]
        while self.accept("and"):
            parts.append(self.primary())
        return parts[0] if len(parts) == 1 else Node(kind="and", parts=parts)

    def primary(self):
        """A parenthesis, a count of parts, or a name."""
        if self.accept("("):
            inner = self.condition()
            self.expect(")")
            return inner
        if self.look().kind == "number":
            return self.count()
        inward = self.accept("in") is not None
        return Node(kind="name", inward=inward, point=self.point(), set=self.maybe_set())

    def count(self):
        """`k ormore (..)` or `k orless (..)`."""
        number = self.look()
        if not (number.text.isdigit() and len(number.text) <= 9):
            self.fail()
        self.take()
        kind = self.one_of("ormore", "orless").text
        self.expect("(")
        parts = self.list_of(self.condition)
        self.expect(")")
        return Node(kind=kind, least=int(number.text), place=number.place, parts=parts)

    # Libraries

    def library(self):
        """The types, uses, extensions and machines of an annex of a package."""
        library = Node(items=[], uses=[], extends=[], machines=[])
        while self.look().kind != "end":
            if self.accept("type"):
                word = self.one_of("mappings", "transformations").text
                self.name()
                self.run()
                self.expect("end", word, ";")
                continue
            self.expect("error")
            if self.one_of("types", "behavior").text == "types":
                self.types(library)
            else:
                library.machines.append(self.machine())
        return library

    def uses(self):
        """`names { , names } ;` behind `use types`."""
        uses = self.list_of(self.names)
        self.expect(";")
        return uses

    def types(self, library):
        """A block of types, behind `error types`."""
        while self.accept("use"):
            self.expect("types")
            library.uses += self.uses()
        if self.accept("extends"):
            library.extends += self.list_of(self.names)
            self.expect("with")
        while self.is_name():
            library.items.append(self.item())
        if self.accept("properties"):
            self.properties()
        self.expect("end", "types", ";")

    def item(self):
        """A type, a set of types, or an alias."""
        name = self.name()
        item = Node(name=name.text, place=name.place, names=None)
        if self.one_of(":", "renames").text == "renames":
            self.expect("type")
            item.kind = "set alias" if self.accept("set") else "type alias"
            item.names = self.names()
            self.expect(";")
            return item
        self.expect("type")
        if self.accept("set"):
            item.kind, item.set = "set", self.set()
        else:
            item.kind = "type"
            if self.accept("extends"):
                item.names = self.names()
        self.tail()
        return item

    def machine(self):
        """An error behavior, behind these words."""
        machine = Node(name=self.name().text, faults=[], uses=[], events=[], states=[],
                       transitions=[], properties=[])
        extends = self.accept("extends")
        if extends:
            machine.faults.append(("P12", extends.place))
            self.names()
        while not self.is_next("end"):
            word = self.one_of("use", "events", "states", "transitions", "properties")
            if word.text == "use":
                if self.one_of("types", "transformations").text == "types":
                    machine.uses += self.uses()
                else:
                    machine.faults.append(("P11", word.place))
                    self.names()
                    self.expect(";")
            elif word.text == "properties":
                machine.properties += self.properties()
            else:
                self.block(word.text, machine)
        self.expect("end", "behavior", ";")
        return machine

    def block(self, word, owner):
        """The events, states or transitions behind their word."""
        if word == "events":
            while self.is_name():
                owner.events.append(self.event())
        elif word == "states":
            while self.is_name():
                owner.states.append(self.state())
        else:
            while self.is_name() or self.is_next("all"):
                owner.transitions.append(self.transition())

    def event(self):
        """An error event, or one of recovery or repair."""
        name = self.name()
        self.expect(":")
        kind = self.one_of("error", "recover", "repair").text
        self.expect("event")
        types = self.maybe_set() if kind == "error" else None
        self.tail()
        return Node(name=name.text, place=name.place, kind=kind, set=types)

    def state(self):
        """A state."""
        name = self.name()
        self.expect(":")
        initial = self.accept("initial") is not None
        self.expect("state")
        types = self.maybe_set()
        self.expect(";")
        return Node(name=name.text, place=name.place, initial=initial, set=types)

    def source(self):
        """`all`, or a state with perhaps a set."""
        token = self.accept("all")
        if token:
            return Node(name=None, place=token.place, set=None)
        return self.goal_state()

    def goal_state(self):
        """A state with perhaps a set."""
        name = self.name()
        return Node(name=name.text, place=name.place, set=self.maybe_set())

    def transition(self):
        """`[ ID : ] source -[ cond ]-> target ;`."""
        label = self.label()
        source = self.source()
        self.expect("-", "[")
        condition = self.condition()
        self.expect("]", "->")
        if self.accept("("):
            goals = self.list_of(self.branch)
            self.expect(")")
        else:
            goals = [self.goal()]
        self.expect(";")
        return Node(label=label and label.text, source=source, condition=condition,
                    goals=[goal for goal in goals if goal])

    def goal(self):
        """A state, or None for `same state`."""
        if self.accept("same"):
            self.expect("state")
            return None
        return self.goal_state()

    def branch(self):
        """`goal with chance`."""
        goal = self.goal()
        self.expect("with")
        if self.look().kind == "number" or self.is_next("others"):
            self.take()
        else:
            self.names()
        return goal

    def properties(self):
        """Properties: of each its names, the tokens of its value, its targets that are paths, with
        None for each other one, and of all others the texts and the names of those with a key."""
        found = []
        while self.is_name():
            names, targets, others = self.names(), [], []
            self.one_of("=>", "+=>")
            value = self.balanced(";", "applies")
            if not value:
                self.fail()
            if self.accept("applies"):
                self.expect("to")
                targets = self.list_of(self.applies_target)
                others = [(text, keyed) for is_path, text, keyed in targets if not is_path]
                targets = [is_path for is_path, _, _ in targets]
            self.expect(";")
            found.append(Node(names=written(names), value=value, targets=targets, others=others,
                              place=names[0].place))
        return found

    def applies_target(self):
        """One or more of ID, word, `.`, `^` and `@`: names with dots, or None for others; its
        text; and of `^a.b@c.d` the four names."""
        signs, tokens = (".", "^", "@") + POINT_WORDS, []
        if not (self.is_name() or self.is_next(*signs)):
            self.fail()
        while self.is_name() or self.is_next(*signs):
            tokens.append(self.take())
        names, dots = tokens[::2], tokens[1::2]
        is_path = len(names) > len(dots) and set(written(dots)) <= {"."}
        is_path = is_path and all(token.kind == "word" for token in names)
        text = "".join(written(tokens))
        is_keyed = re.fullmatch(r"\^\w+(\.\w+)*@\w+(\.\w+)*", text)
        keyed = tuple(re.findall(r"\w+", text)) if is_keyed else None
        return (written(names) if is_path else None), text, keyed

    # Clauses

    def clause(self):
        """What an annex of a classifier says."""
        clause = Node(uses=[], behavior=None, mapping_faults=[], connection_faults=[],
                      propagations=[], flows=[], events=[], transitions=[], outgoing=[],
                      composites=[], points=[], paths=[], properties=[])
        while self.look().kind != "end":
            word = self.one_of("use", "error", "component", "composite", "connection",
                               "propagation", "properties")
            read = {"use": self.use, "error": self.propagations, "component": self.component,
                    "composite": self.composites, "connection": self.connection_errors,
                    "propagation": self.paths}.get(word.text)
            if read:
                read(clause, word)
            else:
                clause.properties += self.properties()
        return clause

    def use(self, clause, word):
        """`use types`, `use behavior`, and uses of mappings."""
        kind = self.one_of("types", "behavior", "type", "mappings").text
        if kind == "types":
            clause.uses += self.uses()
            return
        if kind == "type":
            self.expect("equivalence")
        names = self.names()
        self.expect(";")
        if kind == "behavior":
            clause.behavior = names
        else:
            clause.mapping_faults.append(("P11", word.place))

    def propagations(self, clause, _word):
        """`error propagations` with flows."""
        self.expect("propagations")
        while self.begins_point():
            point = self.point()
            self.expect(":")
            negated = self.accept("not") is not None
            direction = self.one_of("in", "out").text
            self.expect("propagation")
            clause.propagations.append(Node(point=point, negated=negated, set=self.set(),
                                            direction=direction))
            self.tail()
        if self.accept("flows"):
            while self.is_name():
                clause.flows.append(self.flow())
        self.expect("end", "propagations", ";")

    def flow(self):
        """A source, a sink or a path."""
        name = self.name()
        self.expect(":", "error")
        kind = self.one_of("source", "sink", "path").text
        flow = Node(name=name.text, place=name.place, kind=kind, point=self.point(),
                    set=self.maybe_set(), state=None, mapping=None)
        if kind == "source" and self.accept("when"):
            if self.is_next("{"):
                self.set()
            elif self.look().kind == "text":
                self.take()
            else:
                flow.state = self.goal_state()
        if kind == "path":
            self.expect("->")
            flow.target, flow.target_set = self.point(), self.maybe_set()
            flow.mapping = self.accept("use")
            if flow.mapping:
                self.expect("mappings")
                self.names()
        self.tail()
        return flow

    def component(self, clause, _word):
        """`component error behavior`."""
        self.expect("error", "behavior")
        while not self.is_next("end"):
            word = self.one_of("use", "events", "transitions", "propagations", "detections",
                               "mode")
            if word.text == "use":
                self.expect("transformations")
                self.names()
                self.expect(";")
                clause.mapping_faults.append(("P11", word.place))
            elif word.text == "propagations":
                while self.is_name() or self.is_next("all"):
                    clause.outgoing.append(self.outgoing())
            elif word.text in ("detections", "mode"):
                if word.text == "mode":
                    self.expect("mappings")
                self.run()
            else:
                self.block(word.text, clause)
        self.expect("end", "component", ";")

    def outgoing(self):
        """`[ ID : ] source -[ [ cond ] ]-> point [ set ] tail ;`."""
        label = self.label()
        source = self.source()
        self.expect("-", "[")
        condition = None if self.is_next("]") else self.condition()
        self.expect("]", "->")
        point, types = self.point(), self.maybe_set()
        self.tail()
        return Node(label=label and label.text, source=source, condition=condition,
                    point=point, set=types)

    def composites(self, clause, _word):
        """`composite error behavior`."""
        self.expect("error", "behavior")
        self.accept("states")
        while self.is_next("[") or self.is_name():
            clause.composites.append(self.composite())
        self.expect("end", "composite", ";")

    def composite(self):
        """`[ ID : ] [ cond ]-> state ;`."""
        start = self.look().place
        label = self.label()
        self.expect("[")
        condition = None if self.accept("others") else self.condition()
        self.expect("]", "->")
        goal = self.goal_state()
        self.expect(";")
        return Node(label=label and label.text, condition=condition, goal=goal, place=start)

    def connection_errors(self, clause, word):
        """`connection error`: read past, and refused where it is used."""
        self.expect("error")
        self.run()
        self.expect("end", "connection", ";")
        clause.connection_faults.append(("P9", word.place))

    def paths(self, clause, _word):
        """`propagation paths`: user points and user paths."""
        self.expect("paths")
        while self.is_name():
            name = self.name()
            self.expect(":")
            if self.accept("propagation"):
                self.expect("point", ";")
                clause.points.append(Node(name=name.text, place=name.place))
                continue
            ends = [self.path_end()]
            self.expect("->")
            ends.append(self.path_end())
            self.expect(";")
            clause.paths.append(Node(name=name.text, ends=ends, place=name.place))
        self.expect("end", "paths", ";")

    def path_end(self):
        """`word` or `ID { . ID } [ . word ]`."""
        if self.is_next(*POINT_WORDS):
            tokens = [self.take()]
        else:
            tokens = self.names(".")
            if self.is_next(".") and self.look(1).text in POINT_WORDS:
                self.take()
                tokens.append(self.take())
        return Node(names=written(tokens), place=tokens[0].place)
