"""Random models of the second profile: conditions with two sides, and bindings of each form.

A model of a seed has both parts, one of them, or none; then it is plain, and means the same by
both profiles. Most names are right, and a few models have a wrong one.

Each text can be written another way that means the same: `K orless (..)` as
`0 orless (K+1 ormore (..))`, a condition as `0 orless (0 orless (..))`, and `others` as
`0 orless` of the conditions of the other clauses.
"""

import random

LIBRARY = """package p public annex emv2 {{** error types
a: type; b: type extends a; c: type; s: type set {{a, c}}; n: type set {{c, noerror}};
end types;
{machines}**}};
"""
SETS = ["{a}", "{a}", "{b}", "{c}", "{a, c}", "{s}"]
NO_ERROR = ["{noerror}", "{noerror}", "{a, noerror}", "{noerror, c}"]
FREE = ["back: recover event;", "back: repair event;", "back: recover event when reset;",
        "back: repair event {when => 1;};"]
FORMS = ["reference ({0})", "(reference ({0}))", "(reference ({0}), reference ({1}))",
         "(reference ({0}), reference ({1}), reference ({2}))"]
ODD_FORMS = ["{0}", "(reference ({0}), ({1}))", "reference ({0}[1])", "()", "(reference ({0}),)"]
RESOURCES = ("bus", "processor", "memory", "virtual bus", "virtual processor")
WORDS = ("processor", "memory", "connection", "binding", "bindings")


class Part:
    """What the maker knows of a classifier."""

    def __init__(self, word, name, machine):
        self.word, self.name, self.machine = word, name, machine
        self.sides, self.children, self.connections = {}, {}, []
        self.events = []


class Wider:
    """Writes one model."""

    def __init__(self, seed, another=False):
        self.random, self.another = random.Random(f"wider {seed}"), another
        self.pick = self.random.choice
        self.conditions = has_conditions(seed)
        self.bindings = seed % 4 in (1, 2)
        self.wrong = self.pick([0] * 7 + [0.03])
        self.machines, self.leaves, self.systems = [], [], []

    def maybe(self, chance):
        """True with this chance."""
        return self.random.random() < chance

    # Conditions

    def condition(self, triggers, depth=0):
        """A condition over triggers, which are functions that write one."""
        text = self.condition_text(triggers, depth)
        if self.another and self.conditions and depth == 0:
            return f"0 orless (0 orless ({text}))"
        return text

    def condition_text(self, triggers, depth):
        """The text of a condition at a depth."""
        roll = self.random.random()
        if depth > 2 or roll < 0.4:
            return self.pick(triggers)()
        parts = [self.condition(triggers, depth + 1)
                 for _ in range(self.random.randint(1, 3))]
        if roll < 0.6:
            return "(" + " and ".join(parts) + ")"
        if roll < 0.75:
            return "(" + " or ".join(parts) + ")"
        least = self.pick([0, 1, 1, 2, 2, len(parts), len(parts), len(parts) + 1])
        return self.count(least, parts, 0.15)

    def count(self, least, parts, chance=0.5):
        """The text of a count of parts."""
        word = "orless" if self.conditions and self.maybe(chance) else "ormore"
        if self.another and word == "orless":
            return f"0 orless ({least + 1} ormore ({', '.join(parts)}))"
        return f"{least} {word} ({', '.join(parts)})"

    def count_of_parts(self, names):
        """A count of states of parts, most often so that what fails or holds is not trivial."""
        chosen = self.random.sample(names, min(len(names), self.random.randint(2, 4)))
        forms = ["{below} orless ({oks})", "0 orless ({least} ormore ({oks}))",
                 "0 orless ({below} orless ({bads}))", "{least} ormore ({bads})",
                 "0 orless ({ok} and {oks})", "0 orless ({ok} or {oks})",
                 "1 ormore ({bad}, {below} orless ({oks}))", "{ok} and {below} orless ({oks})"]
        if self.maybe(0.3):
            forms = ["{least} ormore ({oks})", "{below} orless ({bads})", "0 orless ({ok} or {bad})",
                     "1 orless ({least} ormore ({oks}), {ok})", "{ok} and {oks}"]
        form = self.pick(forms)
        one, rest = chosen[0], chosen[1:]
        lists = {f"{state}s": ", ".join(f"{name}.{state}" for name in rest)
                 for state in ("ok", "bad")}
        for word in ("and", "or"):
            if word + " {oks}" in form:
                lists["oks"] = lists["oks"].replace(", ", f" {word} ")
        least = self.random.randint(0 if self.maybe(0.1) else 1, len(rest))
        text = form.format(least=least, below=max(0, least - 1), ok=f"{one}.ok",
                           bad=f"{one}.bad", **lists)
        if self.another:
            return f"0 orless (0 orless ({text}))"
        return text

    def set(self, declared, is_open=False):
        """The text of a set within a declared one, or none; `noerror` where that is new."""
        if self.conditions and self.maybe(0.07):
            if is_open or declared in ("{a, c}", "{s}"):
                return self.pick(NO_ERROR)
            return self.pick(NO_ERROR[:3] if declared == "{a}" else NO_ERROR[:1])
        if not declared or self.maybe(0.5):
            return ""
        if self.maybe(self.wrong):
            return self.pick(SETS)
        found = {"{a}": self.pick(["{a}", "{b}"]), "{b}": "{b}", "{c}": self.pick(["{c}", "{n}"]),
                 }.get(declared) or self.pick(SETS + ["{n}"])
        return "{c}" if found == "{n}" and not self.conditions else found

    def name(self, right):
        """A name, or seldom a wrong one."""
        return self.pick(["zz", "ok", "i0", "e0"]) if self.maybe(self.wrong) else right

    def event_triggers(self, events):
        """Functions that write events; `back` has no types."""
        return [lambda n=name, d=declared: self.name(n) + (
            self.set(d) if d else self.pick(["", "", "{noerror}"]) if self.conditions else "")
                for name, declared in events]

    def point_triggers(self, part):
        """Functions that write points with an inward side."""
        return [lambda p=point, d=declared:
                (self.pick(["", "in "])) + self.name(p) + self.set(d, d is None)
                for (point, side), declared in part.sides.items() if side == "in"]

    def events(self, names):
        """Declarations of events, and what is known of them."""
        text, known = "", []
        for name in names:
            if self.conditions and self.maybe(0.5 if name == "back" else 0.07):
                text += self.pick(FREE).replace("back", name) + "\n"
                known.append((name, None))
                continue
            declared = self.pick([None, None, "{a}", "{a, c}"])
            text += f"{name}: error event {declared or ''};\n"
            known.append((name, declared))
        return text, known

    def state(self, machine, source=False):
        """A used state."""
        if source and self.maybe(0.05):
            return "all"
        name, declared = self.pick(machine["states"])
        if declared and self.maybe(0.4):
            return name + self.pick(["{a}", "{c}", "{b}"] if declared == "{a, c}" else ["{a}"])
        return self.name(name)

    def transitions(self, machine, triggers, most):
        """Some transitions."""
        text = ""
        for _ in range(self.random.randint(1, most)):
            goal = self.state(machine)
            if self.maybe(0.1):
                other = self.pick(["same state", self.state(machine)])
                goal = f"({goal} with 0.5, {other} with others)"
            label = self.pick(["", "", "", "t: "])
            text += (f"{label}{self.state(machine, True)} -[{self.condition(triggers)}]-> "
                     f"{goal};\n")
        return text

    def machine(self, number):
        """A machine; its first state is initial, most often."""
        names = ["e0", "e1", "back"][:self.random.randint(1, 3)]
        if self.maybe(0.15):
            names.append(self.pick(names))
        events, known = self.events(names)
        known = list({name: (name, types) for name, types in reversed(known)}.values())
        declared = self.pick([None, None, "{a}", "{a, c}"])
        states = [("ok", None), ("bad", None), ("worse", declared)][:self.random.randint(2, 3)]
        machine = {"name": f"m{number}", "states": states, "events": known}
        initial = "" if self.maybe(0.02) else "initial "
        text = f"error behavior m{number} use types p;\nevents {events}states\n"
        for name, its in states:
            text += f"{name}: {initial if name == 'ok' else ''}state {its or ''};\n"
        text += "transitions\n" + ("ok -[e0]-> bad;\n" if self.maybe(0.8) else "")
        text += self.transitions(machine, self.event_triggers(known), 3)
        self.machines.append(machine)
        return text + "end behavior;\n"

    # Components

    def propagation(self, part, point, side, text):
        """A propagation of a point."""
        declared = self.pick(SETS + ["{a, c}"] * (4 if point in WORDS else 0))
        part.sides[point, side] = declared
        return text + f"{point}: {side} propagation {declared};\n"

    def ports(self, part, least):
        """Features, and their propagations; some sides stay open."""
        features, text = "", ""
        for name, side, kind in (("i0", "in", "in data port"), ("i1", "in", "in event port"),
                                 ("o0", "out", "out data port"), ("o1", "out", "out data port")):
            if not (name[-1] == "0" and least) and self.maybe(0.5):
                continue
            features += f"{name}: {kind};\n"
            part.sides[name, side] = None
            if self.maybe(0.85):
                text = self.propagation(part, name, side, text)
        if self.bindings and self.maybe(0.15):
            features += "net: requires bus access;\n"
            part.sides["net", "in"] = part.sides["net", "out"] = None
        return features, text

    def flows(self, part):
        """Sources and paths of a component."""
        text = ""
        inward = [point for point, side in part.sides if side == "in"]
        outward = [point for point, side in part.sides if side == "out"]
        for number, point in enumerate(outward):
            declared = part.sides[point, "out"]
            target = declared if declared and self.maybe(0.4) else ""
            if self.maybe(0.35):
                when = (f" when {self.state(part.machine)}"
                        if part.machine and self.maybe(0.8) else "")
                text += f"s{number}: error source {point}{target}{when};\n"
            for index, start in enumerate(inward):
                if self.maybe(0.35):
                    text += f"f{number}x{index}: error path {start} -> {point}{target};\n"
        return text

    def behavior(self, part):
        """Events, transitions and outgoing conditions of a component."""
        text, known = "", []
        if self.maybe(0.3):
            events, known = self.events(self.pick([["g"], ["g", "g"], ["e0"], ["back"]]))
            text += f"events {events}"
        mine = {name for name, _ in part.machine["events"]} if part.machine else set()
        known = [each for each in known[-1:] if each[0] not in mine]
        known += part.machine["events"] if part.machine else []
        triggers = self.event_triggers(known) + self.point_triggers(part)
        if part.machine and triggers and self.maybe(0.6):
            text += "transitions\n" + self.transitions(part.machine, triggers, 3)
        outward = [point for point, side in part.sides if side == "out"]
        if outward and self.maybe(0.6):
            text += "propagations\n"
            for _ in range(self.random.randint(1, 2)):
                source = self.state(part.machine, True) if part.machine else "all"
                inner = self.condition(triggers) if triggers and self.maybe(0.6) else ""
                point = self.pick(outward)
                target = self.pick(["", part.sides[point, "out"] or ""])
                text += f"{source} -[{inner}]-> {point}{target};\n"
        return f"component error behavior\n{text}end component;\n" if text else ""

    def clause(self, part, propagations, composite=""):
        """The annex of a classifier."""
        text = "annex EMV2 {** use types p;\n"
        if part.machine:
            text += f"use behavior p::{part.machine['name']};\n"
        flows = self.flows(part) if not composite else ""
        if propagations or flows:
            text += f"error propagations\n{propagations}"
            text += f"flows\n{flows}end propagations;\n" if flows else "end propagations;\n"
        if not composite:
            text += self.behavior(part)
        return text + composite + "**};\n"

    def words(self, part, chances):
        """Propagations of words."""
        text = ""
        for word, chance in chances.items():
            for side in ("in", "out"):
                if self.maybe(chance if side == "in" or word == "bindings" else chance / 3):
                    text = self.propagation(part, word, side, text)
        return text

    def leaf(self, number):
        """A device, a thread, or what others are bound to."""
        resource = self.bindings and (number == 1 or number and self.maybe(0.35))
        word = self.pick(RESOURCES if resource else ("device", "thread", "abstract"))
        part = Part(word, f"c{number}",
                    self.pick(self.machines * (2 if self.conditions else 1) + [None]))
        features, text = self.ports(part, not resource)
        if resource:
            text += self.words(part, {"bindings": 0.9, "processor": 0.25, "connection": 0.25})
        elif self.bindings:
            text += self.words(part, {"processor": 0.6, "memory": 0.4, "connection": 0.5,
                                      "binding": 0.4})
        self.leaves.append(part)
        features = f"features {features}" if features else ""
        return f"{word} {part.name}\n{features}{self.clause(part, text)}end {part.name};\n"

    # Systems

    def system(self, number, last):
        """A type and an implementation, and sometimes another one that extends it."""
        word = self.pick(["system"] * 6 + list(RESOURCES)) if self.bindings else "system"
        part = Part(word, f"t{number}",
                    self.pick(self.machines * (3 if self.conditions else 1) + [None]))
        features, text = self.ports(part, True)
        if self.bindings:
            text += self.words(part, {"processor": 0.15, "bindings": 0.15, "connection": 0.2})
        found = f"{word} {part.name}\nfeatures {features}"
        if text:
            found += (f"annex EMV2 {{** use types p; error propagations\n{text}"
                      "end propagations; **};\n")
        found += f"end {part.name};\n"
        kinds = self.leaves + self.systems * (2 if last else 1)
        for index in range(self.random.randint(2, 4)):
            part.children[f"x{index}"] = self.pick(kinds)
        links = self.connections(part)
        parts = "".join(self.part(part, name, child) for name, child in part.children.items())
        found += f"{word} implementation {part.name}.i\nsubcomponents {parts}"
        found += f"connections {links}" if links else ""
        found += self.properties(part)
        found += self.clause(part, "", self.composite(part))
        found += f"end {part.name}.i;\n"
        self.systems.append(part)
        if last and self.bindings and self.maybe(0.3):
            refined = ""
            if self.maybe(0.5):
                name, child = self.pick(list(part.children.items()))
                refined = "subcomponents " + self.part(part, name, child, "refined to ")
            more = self.properties(part)
            found += (f"{word} implementation {part.name}.j extends {part.name}.i\n{refined}"
                      f"{more}end {part.name}.j;\n")
            return found, f"p::{part.name}.j"
        return found, f"p::{part.name}.i"

    def part(self, part, name, child, refined=""):
        """A subcomponent, perhaps with bindings in braces."""
        item = ".i" if child in self.systems else ""
        targets = [path for path, _ in below(child, 2)] + child.connections
        braces = self.braces(part, targets) if self.maybe(0.3) else ""
        return f"{name}: {refined}{child.word} {child.name}{item}{braces};\n"

    def braces(self, part, targets):
        """Bindings in braces behind a subcomponent or a connection."""
        if not self.bindings:
            return ""
        found = "".join(self.binding(part, targets) for _ in range(self.pick([1, 1, 2])))
        return f" {{ {found}}}" + self.pick([""] * 4 + [" in modes (m)"])

    def connections(self, part):
        """Connections to most inward points of parts, and to own points."""
        starts = [f"{name}.{point}" for name, child in part.children.items()
                  for point, side in child.sides if side == "out" and point not in WORDS]
        own = [point for point, side in part.sides if side == "in" and point not in WORDS]
        goals = [f"{name}.{point}" for name, child in part.children.items()
                 for point, side in child.sides if side == "in" and point not in WORDS]
        goals += [point for point, side in part.sides if side == "out" and point not in WORDS]
        text = ""
        for number, goal in enumerate(goals):
            if (starts + own) and self.maybe(0.75):
                start = self.name(self.pick(starts + own))
                sign = "<->" if self.maybe(0.15) else "->"
                word = "bus access" if goal.endswith("net") or self.maybe(0.05) else "port"
                part.connections.append(f"k{number}")
                braces = self.braces(part, []) if self.maybe(0.2) else ""
                text += f"k{number}: {word} {start} {sign} {goal}{braces};\n"
        return text

    def composite(self, part):
        """Composite clauses, or none."""
        triggers = [lambda n=f"{path}.{state}", d=types: n + self.set(d)
                    for path, child in below(part, 2) if child.machine
                    for state, types in child.machine["states"]]
        if not triggers or not part.machine or self.maybe(0.1 if self.conditions else 0.25):
            return ""
        triggers += [lambda t=each: "in " + t().removeprefix("in ")
                     for each in self.point_triggers(part)] * self.maybe(0.3)
        labels = self.pick([["", "", "", ""], ["", "", "k: ", "l: "]])
        clauses, conditions = [], []
        names = [path for path, child in below(part, 2) if child.machine]
        counts = len(names) > 1 and self.conditions and self.maybe(0.75)
        for _ in range(self.pick([1, 1, 2, 3])):
            conditions.append(self.count_of_parts(names) if counts and self.maybe(0.85)
                              else self.condition(triggers))
            clauses.append(f"{self.pick(labels)}[{conditions[-1]}]-> {self.goal(part)};\n")
        others = "others"
        if self.another and self.conditions and "k: " not in labels:
            others = f"0 orless ({' or '.join(f'({each})' for each in conditions)})"
        for _ in range(self.pick([0, 1, 1, 2]) if self.conditions else self.pick([0, 0, 1])):
            goal = self.goal(part) if self.conditions else "ok"
            clauses.insert(0 if self.maybe(0.3) else len(clauses), f"[{others}]-> {goal};\n")
        return f"composite error behavior states\n{''.join(clauses)}end composite;\n"

    def goal(self, part):
        """The state to which a clause leads, most often not the initial one."""
        goal = self.state(part.machine)
        return self.state(part.machine) if goal == "ok" and self.maybe(0.7) else goal

    # Bindings

    def properties(self, part):
        """A section of properties with bindings of every form."""
        if not self.bindings:
            return ""
        return "properties\n" + "".join(
            self.binding(part) for _ in range(self.random.randint(2, 6)))

    def binding(self, part, within=None):
        """One binding, seldom of a form that has no effect; in braces with targets within what
        stands before them."""
        inside = below(part, 3)
        paths = [path for path, _ in inside]
        resources = [path for path, child in inside if child.word in RESOURCES] or paths
        kind = self.pick(["connection"] * 5 + ["processor"] * 3 + ["memory", "function"] * 2)
        found = [self.pick(resources if self.maybe(0.85) else paths + ["x9", "x0.x9"])
                 for _ in range(3)]
        targets = paths
        if kind == "connection":
            targets = [name for name in part.connections]
            targets += [path for path, child in inside if child.word == "virtual bus"]
            targets += [f"{path}.{name}" for path, child in inside for name in child.connections]
            targets = targets if self.maybe(0.9) and targets else paths + ["k9"]
        name = self.pick(["", "", "Deployment_Properties::"]) + f"Actual_{kind}_Binding"
        form = self.pick(FORMS if self.maybe(0.95) else ODD_FORMS).format(*found)
        sign = "=>" if self.maybe(0.96) else "+=>"
        applies = self.pick([" applies to"] * 20 + [" in modes (m) applies to"])
        behind = self.pick([""] * 12 + [" in modes (m)", " in binding (x0)"])
        if within is not None:
            if not within or self.maybe(0.6):
                return f"{name} {sign} {form}{behind};\n"
            targets = within
        chosen = ", ".join(self.pick(targets) for _ in range(self.pick([1, 1, 2])))
        return f"{name} {sign} {form}{applies} {chosen}{behind};\n"

    def model(self):
        """The text of a model, and its root."""
        machines = "".join(self.machine(number) for number in range(self.random.randint(1, 2)))
        text = LIBRARY.format(machines=machines)
        for number in range(self.random.randint(2, 4)):
            text += self.leaf(number)
        count = self.random.randint(1, 3)
        root = None
        for number in range(count):
            found, root = self.system(number, number == count - 1)
            text += found
        return text + "end p;\n", root


def below(part, depth):
    """The paths and classifiers of the components below a classifier."""
    found = []
    for name, child in part.children.items():
        found.append((name, child))
        if depth > 1:
            found += [(f"{name}.{path}", each) for path, each in below(child, depth - 1)]
    return found


def has_conditions(seed):
    """Has the model of a seed conditions that are new?"""
    return seed % 4 in (0, 2)


def is_plain(seed):
    """Has the model of a seed none of the forms that are new?"""
    return seed % 4 == 3


def model(seed, another=False):
    """The text and the root of the model of a seed, perhaps written another way."""
    return Wider(seed, another).model()
