"""Random models of the first profile: mostly right, some with a wrong name or a lost token."""

import random
import re

import rated


class Kind:
    """What a maker knows of a classifier that it wrote."""

    def __init__(self, name, category, base=None):
        self.name, self.category, self.item = name, category, ""
        self.features = dict(base.features) if base else {}
        self.sides = dict(base.sides) if base else {}
        self.machine = base.machine if base else None
        self.events = dict(base.events) if base else {}
        self.children = dict(base.children) if base else {}
        self.user_points = list(base.user_points) if base else []
        self.flows = list(base.flows) if base else []


class Maker:
    """Writes one model from a seed."""

    def __init__(self, seed):
        self.random, self.rates = random.Random(seed), random.Random(f"rates {seed}")
        self.wrong = self.random.choice([0, 0, 0, 0, 0.002, 0.01, 0.04])
        self.libraries, self.machines, self.kinds, self.terms = [], [], [], []
        self.plain = []
        self.home = {}

    # Choices

    def maybe(self, chance):
        """True with this chance."""
        return self.random.random() < chance

    def pick(self, items, wrong="zz"):
        """One of the items, or seldom a wrong name."""
        items = list(items)
        if not items or self.maybe(self.wrong):
            return self.random.choice(items + [wrong, "i0", "s0", "e0", "c0"])
        return self.random.choice(items)

    def some(self, items, most):
        """Between one and `most` of the items."""
        items = list(items)
        return [self.pick(items) for _ in range(self.random.randint(1, most))]

    # Error types

    def library(self, number):
        """The types of a package."""
        name = self.random.choice([f"L{number}", f"Lib::Part{number}"])
        lines, own, plain = [], [], []
        extends = [lib for lib in self.libraries if self.maybe(0.3)]
        if extends:
            lines.append("extends " + ", ".join(extends) + " with")
        uses = "".join(f"use types {lib};\n" for lib in self.libraries)
        for index in range(self.random.randint(1, 4)):
            one = f"t{index}" if self.maybe(0.3) else f"t{number}x{index}"
            above = ""
            if (plain or self.plain) and self.maybe(0.5):
                above = " extends " + self.pick(plain or self.plain)
            lines.append(f"{one}: type{above};")
            own.append(one)
            plain.append(one)
        if self.maybe(0.5):
            lines.append(f"al{number} renames type {self.pick(plain)};")
            own.append(f"al{number}")
        if self.maybe(0.6):
            inner = ", ".join(self.some(own + self.terms, 3))
            lines.append(f"set{number}: type set {{{inner}}};")
            own.append(f"set{number}")
            if self.maybe(0.4):
                lines.append(f"sal{number} renames type set set{number};")
                own.append(f"sal{number}")
        self.libraries.append(name)
        self.plain += [f"{name}::{one}" for one in plain]
        self.terms += own + [f"{name}::{one}" for one in own]
        return name, "error types\n" + uses + "\n".join(lines) + "\nend types;\n"

    def set_of(self, terms=None, most=2):
        """A written set, of these terms."""
        found = self.some(terms or self.terms, most)
        if self.maybe(0.03):
            found.append("noerror")
        return found

    @staticmethod
    def braces(terms):
        """The text of a set, or nothing."""
        return "{" + ", ".join(terms) + "}" if terms else ""

    def use_of(self, declared):
        """The text of a use of something that is declared with terms: a part, or no set."""
        usable = [term for term in declared or [] if term != "noerror"]
        if not usable or self.maybe(0.4):
            return ""
        return self.braces(self.some(usable, 2))

    def uses(self):
        """The line of `use types`."""
        return f"use types {', '.join(self.libraries)};\n" if self.libraries else ""

    # Conditions

    def condition(self, triggers, depth=0):
        """A condition over triggers, which are functions that write one."""
        roll = self.random.random()
        if depth > 2 or roll < 0.45:
            return self.random.choice(triggers)()
        parts = [self.condition(triggers, depth + 1)
                 for _ in range(self.random.randint(1, 4))]
        if roll < 0.6:
            return " and ".join(f"({part})" for part in parts)
        if roll < 0.68:
            return " and ".join(parts)
        if roll < 0.78:
            return " or ".join(parts)
        if roll < 0.84:
            return "(" + " or ".join(parts) + ")"
        word = "orless" if self.maybe(self.wrong) else "ormore"
        least = self.random.choice([0, 1, 2, 2, 2, 3])
        return f"{least} {word} ({', '.join(parts)})"

    def triggers(self, events, sides):
        """Functions that write an event or a point."""
        found = [lambda e=e: e + self.use_of(events[e]) for e in events]
        for (point, direction), terms in sides.items():
            if direction == "in":
                found.append(lambda p=point, t=terms:
                             ("in " if p in events or self.maybe(0.5) else "")
                             + p + self.use_of(t))
        return found

    def state(self, states, chance_all=0.0):
        """A used state."""
        if self.maybe(chance_all):
            return "all"
        name = self.pick(states)
        return name + self.use_of(states.get(name))

    def transition(self, states, triggers, labels):
        """A transition."""
        label = f"{self.pick(labels)}: " if self.maybe(0.3) else ""
        goal = self.state(states)
        if self.maybe(0.2):
            other = "same state" if self.maybe(0.3) else self.state(states)
            goal = f"({goal} with 0.25, {other} with others)"
        source = self.state(states, 0.15)
        return f"{label}{source} -[{self.condition(triggers)}]-> {goal};\n"

    # Machines

    def machine(self, number, library):
        """An error behavior of a package."""
        name = f"m{number}"
        events = {f"e{i}": self.set_of() if self.maybe(0.25) else None
                  for i in range(self.random.randint(1, 3))}
        states = {f"s{i}": self.set_of() if self.maybe(0.2) else None
                  for i in range(self.random.randint(1, 4))}
        text = f"error behavior {name}\n{self.uses()}events\n"
        for event, terms in events.items():
            kind = "repair" if self.maybe(self.wrong) else "error"
            text += f"{event}: {kind} event {'' if kind == 'repair' else self.braces(terms)};\n"
        text += "states\n"
        for state, terms in states.items():
            initial = "initial " if self.maybe(0.9 if state == "s0" else 0.05) else ""
            text += f"{state}: {initial}state {self.braces(terms)};\n"
        text += "transitions\n"
        triggers = self.triggers(events, {})
        for _ in range(self.random.randint(0, 4)):
            text += self.transition(states, triggers, ["u", "v"])
        self.machines.append((f"{library}::{name}", events, states))
        text += rated.block(self.rates, list(events) + ["g0", "w0"], 3)
        return text + "end behavior;\n"

    # Classifiers

    def feature(self, kind):
        """A feature, new or refined."""
        forms = {"i": "in data port", "o": "out event data port", "b": "in out event port",
                 "f": "feature", "a": "requires bus access", "n": "in feature"}
        letter = self.random.choice("iiioooobfan")
        name, refined = f"{letter}{self.random.randint(0, 2)}", ""
        if name in kind.features:
            if name in kind.fresh:
                return ""
            refined = "refined to "
        kind.fresh.add(name)
        sides = {"i": ("in",), "o": ("out",), "n": ("in",)}.get(letter, ("in", "out"))
        kind.features[name] = sides
        for side in sides:
            kind.sides.setdefault((name, side), None)
        return f"{name}: {refined}{forms[letter]};\n"

    def propagations(self, kind):
        """Propagations for features and words."""
        text, words = "", ("processor", "memory", "bindings", "access", "binding")
        for name, sides in kind.features.items():
            for side in sides:
                if self.maybe(0.6):
                    terms = self.wider(kind, name, side)
                    text += f"{name}: {side} propagation {self.braces(terms)};\n"
                    kind.sides[name, side] = terms
        for word in words:
            if self.maybe(0.25):
                for side in ("in", "out"):
                    if self.maybe(0.7):
                        terms = self.wider(kind, word, side)
                        text += f"{word}: {side} propagation {self.braces(terms)};\n"
                        kind.sides[word, side] = terms
        if text and self.maybe(0.1):
            text += text.splitlines()[0].replace(": ", ": not ", 1) + "\n"
        return text

    def wider(self, kind, point, side):
        """The terms of a propagation, most often with those that it replaces."""
        old = kind.sides.get((point, side)) or []
        return (old if self.maybe(0.9) else []) + self.set_of()

    def flows(self, kind, states):
        """Sources, sinks and paths."""
        inward = [point for point, side in kind.sides if side == "in"]
        outward = [point for point, side in kind.sides if side == "out"]
        text = ""
        for _ in range(self.random.randint(0, 4)):
            name = f"w{self.random.randint(0, 4)}"
            roll = self.random.random()
            if roll < 0.3 and outward:
                point = self.pick(outward)
                when = f" when {self.state(states)}" if states and self.maybe(0.4) else ""
                text += (f"{name}: error source {point}"
                         f"{self.use_of(kind.sides.get((point, 'out')))}{when};\n")
            elif roll < 0.9 and inward and outward:
                start, goal = self.pick(inward), self.pick(outward)
                target = self.use_of(kind.sides.get((goal, "out")))
                text += (f"{name}: error path {start}"
                         f"{self.use_of(kind.sides.get((start, 'in')))} -> {goal}{target};\n")
            elif inward:
                text += f"{name}: error sink {self.pick(inward)};\n"
        return text

    def behavior(self, kind, states):
        """Events, transitions and outgoing conditions of a component."""
        text = ""
        if self.maybe(0.4):
            text += "events\n"
            for _ in range(self.random.randint(1, 2)):
                name, terms = f"g{self.random.randint(0, 2)}", None
                terms = self.set_of() if self.maybe(0.2) else None
                kind.events[name] = terms
                text += f"{name}: error event {self.braces(terms)};\n"
        events = dict(kind.events)
        if kind.machine:
            events.update(kind.machine[1])
        triggers = self.triggers(events, kind.sides)
        if states and triggers and self.maybe(0.7):
            text += "transitions\n"
            for _ in range(self.random.randint(1, 3)):
                text += self.transition(states, triggers, ["x", "y"])
        outward = [point for point, side in kind.sides if side == "out"]
        if outward and self.maybe(0.7):
            text += "propagations\n"
            for _ in range(self.random.randint(1, 3)):
                label = f"{self.pick(['p', 'q'])}: " if self.maybe(0.3) else ""
                source = self.state(states, 0.3) if states else "all"
                inner = self.condition(triggers) if triggers and self.maybe(0.5) else ""
                point = self.pick(outward)
                text += (f"{label}{source} -[{inner}]-> {point}"
                         f"{self.use_of(kind.sides.get((point, 'out')))};\n")
        return text

    def composite(self, kind, states):
        """Composite clauses over states of components below."""
        triggers = []
        for path, child in below(kind, 2):
            for state, terms in (child.machine[2] if child.machine else {}).items():
                triggers.append(lambda n=f"{path}.{state}", t=terms: n + self.use_of(t))
        for (point, direction), terms in kind.sides.items():
            if direction == "in" and self.maybe(0.5):
                triggers.append(lambda p=point, t=terms: f"in {p}{self.use_of(t)}")
        if not triggers or not states:
            return ""
        text = "composite error behavior states\n"
        for _ in range(self.random.randint(1, 3)):
            label = f"{self.pick(['k', 'l'])}: " if self.maybe(0.3) else ""
            text += f"{label}[{self.condition(triggers)}]-> {self.state(states)};\n"
        if self.maybe(0.3):
            text += f"[others]-> {self.pick([s for s in states if s == 's0'] or states)};\n"
        return text + "end composite;\n"

    def paths(self, kind):
        """User points and user paths."""
        text = ""
        for _ in range(self.random.randint(0, 2)):
            name = f"up{self.random.randint(0, 2)}"
            if name not in kind.user_points:
                kind.user_points.append(name)
                kind.sides.update({(name, "in"): None, (name, "out"): None})
                text += f"{name}: propagation point;\n"
        ends = self.ends(kind, 3)
        for _ in range(self.random.randint(0, 3)):
            if ends:
                name = f"link{self.random.randint(0, 5)}"
                text += f"{name}: {self.pick(ends)} -> {self.pick(ends)};\n"
        return f"propagation paths\n{text}end paths;\n" if text else ""

    def ends(self, kind, depth):
        """The points of a component and of those below, as ends of paths."""
        found = sorted({point for point, _ in kind.sides})
        for path, child in below(kind, depth):
            found += sorted({f"{path}.{point}" for point, _ in child.sides})
        return found

    def annex(self, kind, composite):
        """A clause."""
        text = f"annex EMV2 {{**\n{self.uses()}"
        if self.machines and self.maybe(0.05 if kind.machine else 0.8):
            kind.machine = self.random.choice(self.machines)
            text += f"use behavior {kind.machine[0]};\n"
        states = kind.machine[2] if kind.machine else {}
        paths = self.paths(kind) if self.maybe(0.4) else ""
        propagations = self.propagations(kind)
        flows = self.flows(kind, states)
        if propagations or flows:
            text += "error propagations\n" + propagations
            text += f"flows\n{flows}" if flows else ""
            text += "end propagations;\n"
        behavior = self.behavior(kind, states)
        if behavior:
            text += f"component error behavior\n{behavior}end component;\n"
        if composite and self.maybe(0.5):
            text += self.composite(kind, states)
        text += rated.block(self.rates, rated.keys(self, kind, below(kind, 3)), 6)
        return text + paths + "**};\n"

    def type(self, number):
        """A component type."""
        category = self.random.choice(["device", "system", "process", "bus", "abstract"])
        bases = [kind for kind in self.kinds if not kind.item]
        base = self.random.choice(bases) if bases and self.maybe(0.3) else None
        kind = Kind(f"c{number}", category, base)
        kind.fresh = set()
        extends = f" extends {self.name_of(base)}" if base else ""
        text = f"{category} {kind.name}{extends}\n"
        features = "".join(self.feature(kind) for _ in range(self.random.randint(0, 4)))
        text += f"features\n{features}" if features else ""
        if self.maybe(0.85):
            text += self.annex(kind, False)
        self.kinds.append(kind)
        self.home[kind] = self.here
        return text + f"end {kind.name};\n"

    def name_of(self, kind):
        """A reference to a classifier."""
        name = kind.name + (f".{kind.item}" if kind.item else "")
        package = self.home[kind]
        if package == self.here and self.maybe(0.8):
            return name
        if self.maybe(self.wrong):
            return self.random.choice([f"qq::{name}", f"zz{name}"])
        alias = self.aliases.get(package)
        return f"{alias or package}::{name}"

    def connections(self, kind):
        """Connections between points of the component and of its subcomponents."""
        inward, outward = [], []
        for (point, side) in kind.sides:
            if point in kind.features or point in kind.user_points + ["bindings"]:
                (outward if side == "in" else inward).append(point)
        inward *= 2
        for name, child in kind.children.items():
            for (point, side) in child.sides:
                if point in child.features:
                    (inward if side == "in" else outward).append(f"{name}.{point}")
        text = ""
        goals = [each for each in inward if self.maybe(0.7)]
        for index, goal in enumerate(goals):
            if outward:
                sign = "<->" if self.maybe(0.15) else "->"
                word = self.random.choice(["port"] * 5 + ["feature", "bus access", "parameter"])
                start = self.pick(outward)
                if "access" in word and kind.children and self.maybe(0.5):
                    start = self.pick(kind.children)
                text += f"k{kind.level}x{index}: {word} {start} {sign} {goal};\n"
        return text

    def bindings(self, kind):
        """Bindings to processors and memories."""
        paths = [path for path, _ in below(kind, 2)]
        text = ""
        for _ in range(self.random.randint(1, 3)):
            if paths:
                name = self.random.choice(["Actual_Processor_Binding", "Actual_Memory_Binding",
                                           "Deployment_Properties::Actual_Memory_Binding"])
                value = f"reference ({self.pick(paths)})"
                if self.maybe(0.5):
                    value = f"({value}, reference ({self.pick(paths)}))"
                targets = ", ".join(self.some(paths, 2))
                text += f"{name} => {value} applies to {targets};\n"
        return f"properties\n{text}" if text else ""

    def implementation(self, number):
        """An implementation of a type of the package."""
        own = [kind for kind in self.kinds if not kind.item and self.home[kind] == self.here]
        if not own:
            return ""
        base = self.random.choice(own)
        kind = Kind(base.name, base.category, base)
        kind.item, kind.level = f"i{number}", 0
        extends = ""
        others = [each for each in self.kinds if each.item and each.name == base.name]
        if others and self.maybe(0.5):
            above = self.random.choice(others)
            extends = f" extends {self.name_of(above)}"
            kind = Kind(base.name, base.category, above)
            kind.item, kind.level = f"i{number}", above.level + 1
        text = f"{base.category} implementation {base.name}.{kind.item}{extends}\n"
        parts, farther = "", list(kind.children)
        for index in range(self.random.randint(1, 4)):
            name, refined = f"x{kind.level}x{index}", ""
            if kind.level and self.maybe(0.25):
                name, refined = self.pick(farther), "refined to "
            child = self.random.choice(self.kinds)
            if not refined or name in farther:
                kind.children[name] = child
            parts += f"{name}: {refined}{child.category} {self.name_of(child)};\n"
        text += "subcomponents\n" + parts
        links = self.connections(kind)
        text += f"connections\n{links}" if links else ""
        text += self.bindings(kind) if self.maybe(0.4) else ""
        if self.maybe(0.7):
            text += self.annex(kind, True)
        self.kinds.append(kind)
        self.home[kind] = self.here
        return text + f"end {base.name}.{kind.item};\n"

    def model(self):
        """The text of a model, and its root."""
        text = ""
        for number in range(self.random.randint(1, 3)):
            name, types = self.library(number)
            body = types
            for index in range(self.random.randint(0, 2)):
                body += self.machine(number * 2 + index, name)
            text += f"package {name} public\nannex EMV2 {{**\n{body}**}};\nend {name};\n"
        for number in range(self.random.randint(1, 2)):
            self.here, self.aliases = f"Q{number}", {}
            text += f"package {self.here} public\n"
            if number and self.maybe(0.5):
                text += "R renames package Q0;\n"
                self.aliases["Q0"] = "R"
            for index in range(self.random.randint(1, 4)):
                text += self.type(number * 10 + index)
            for index in range(self.random.randint(0, 4)):
                text += self.implementation(number * 10 + index)
            text += f"end {self.here};\n"
        kinds = [kind for kind in self.kinds if kind.item] or self.kinds
        root = kinds[-1] if self.maybe(0.7) else self.random.choice(kinds)
        name = root.name + (f".{root.item}" if root.item else "")
        return text, f"{self.home[root]}::{name}"


# Lines that are set behind (or, with "<", before) a place; @ stands for a name of
# the text and # for one that may have a package.
ODD = [
    ("features\n", ["@: in data port;", "@: in data port [2];", "g0: feature group;",
                    "@: refined to in data port;", "@: refined to feature;",
                    "bindings: in data port;", "o1: refined to out event data port [3];",
                    "z9: requires bus access @::@ {@ => 1;};", "i1: refined to feature group;"]),
    ("subcomponents\n", ["@: device @;", "@: refined to system @;", "bindings: device @;",
                         "z8: system @ (x => system);", "z7: system @ [2];", "z6: process;",
                         "x0x0: refined to system;", "x0x1: refined to system @.@ in modes (m);",
                         "z5: thread group @::@ {period => 3;};", "z4: system @.@;"]),
    ("connections\n", ["z1: port @ -> @;", "z2: port @.@ -> @;", "z3: port processor.@ -> @;",
                       "z3: port self.@ <-> @.@.@;", "z4: bus access @ -> @.@;",
                       "z5: bus access @.@ -> @;", "k0x0: refined to port;",
                       "k0x1: refined to data access {@ => 1;};", "z6: port x0x0.@ <-> x0x1.@;",
                       "z7: feature group @ -> @;", "k0x2: refined to port @ <-> x0x0.@;",
                       "z8: port bindings -> x0x0.bindings;", "z9: port x0x1.@ -> x0x0.binding;",
                       "z0: port @ -> @.@ [1];"]),
    ("<end types;", ["@: type;", "@: type extends #;", "@: type set {#, #};",
                     "y1: type extends #;",
                     "@: type set {@ * @};", "y2 renames type #;", "y3 renames type set #;",
                     "@ renames type #;", "y4: type set {@::@, noerror} {@ => 1};",
                     "t0: type set {@, y4};", "y4: type set {y1, @};"]),
    ("error types\n", ["use types #;", "use types #, #;", "use types #;\nextends # with",
                       "extends #, # with"]),
    ("states\n", ["@: state;", "s1: initial state;", "@: state {#};", "s2: state {#, #};"]),
    ("events\n", ["@: error event;", "e1: error event {#};", "@: repair event (when (x));",
                  "g1: error event {#, #} [;];"]),
    ("transitions\n", ["@ -[@]-> @;", "x: s0 -[e0]-> s1;", "all -[@ or in @]-> s1;",
                       "y: s1 -[2 ormore (@, @, e0)]-> (s0 with @::@, same state with others);",
                       "s0 -[(1 orless (@))]-> @;", "s0 -[e0{noerror}]-> @;",
                       "s0 -[@.@ and @]-> s0;", "s1 -[in processor]-> s0{#};"]),
    ("error propagations\n", ["@: in propagation {#};", "@: not out propagation {#};",
                              "@.@: in propagation {#};", "processor: in propagation {#};",
                              "memory: out propagation {noerror};", "o0: in propagation {#};",
                              "connection: in propagation {#, #};"]),
    ("\nflows\n", ["w0: error source @;", "@: error path @ -> @;", "w1: error sink @{#};",
                   "w2: error path @{#} -> @{#};", "w3: error path i0 -> o0 use mappings @;",
                   "w4: error source o0 when {#};", 'w5: error source o1 when "none";',
                   "w6: error source @{#} when s1{#};", "w7: error sink all;"]),
    ("component error behavior\n", ["use transformations @;", "detections\ns0 -[e0]-> o0;",
                                    "mode mappings s0 in modes (m);", "propagations\nall -[]-> @;",
                                    "events", "propagations\n@ -[@]-> @{#} {x};"]),
    ("composite error behavior states\n", ["[@]-> s1;", "[x0x0.@]-> s1;", "[in @]-> s1;",
                                           "[others]-> s1;", "k: [x0x0.s1]-> s1;",
                                           "[in @{noerror} or x0x1.s0{#}]-> @;", "[in @.@]-> s1;",
                                           "l: [2 ormore (x0x0.s1, x0x1.s1, x0x0.s0)]-> s1;"]),
    ("propagation paths\n", ["@: propagation point;", "link0: @ -> @;", "link1: x0x0.@ -> @;",
                             "link2: x0x0.x0x1.@ -> x0x1.@;", "link3: bindings -> x0x0.processor;",
                             "link4: x0x0 -> @;"]),
    (r"annex EMV2 {\*\*\n", ["use types #;", "use behavior #;", "use mappings @;",
                          "use type equivalence @;", "use behavior #::@;", "properties",
                          "connection error x end connection;",
                          "error propagations bindings: in propagation {#}; end propagations;",
                          "type mappings m use types x; {a} -> {b}; end mappings;",
                          "error behavior m0 states s0: initial state; s1: state; end behavior;"]),
    (" public\n", ["@ renames package #;", "@ renames system @::@;", "renames device @::@;",
                   "renames @::all;", "with @, @;", "annex x {** ( \" **};",
                   "@ renames package Q0;",
                   "system c0 end c0;", "c7 renames system Q0::c0;", "private", "annex emv2 none;",
                   "feature group fg features a: in data port; end fg;"]),
    ("<annex EMV2", ["prototypes none;", "prototypes x: system;", "flows f: flow source o0;",
                     "modes m: initial mode;", "requires modes @: mode;", "annex x {** a **};",
                     "features z0: in feature;", "internal features e: event;"]),
    (r"<end c\d", ["annex EMV2 {** use types #; **} in modes (m, n);",
                   "properties a => [x => (1)];",
                   "annex EMV2 {** use behavior #::m0; **};", "properties none;",
                   "annex EMV2 {** component error behavior events g2: error event; "
                   "propagations all -[g2]-> @; end component; **};", "calls x: {};",
                   "properties actual_processor_binding => (reference(x0x0), reference(@)) "
                   "applies to x0x1, x0x0.x0x0 in binding ();",
                   "properties deployment_properties::actual_memory_binding => reference(x0x1.@)"
                   " applies to @.@;", "subcomponents none;", "connections none;"]),
]


def odd(text, seed):
    """The text with a few lines of ODD set in."""
    chooser = random.Random(seed)
    words = sorted(set(re.findall(r"[A-Za-z]\w*(?:::\w+)*", text)))
    words = [word for word in words if re.search(r"\d", word)]
    names = [word for word in words if "::" not in word]
    for _ in range(chooser.choice([1, 1, 2, 3, 5])):
        anchor, lines = chooser.choice(ODD)
        places = list(re.finditer(anchor.lstrip("<"), text))
        if places:
            place = chooser.choice(places)
            at = place.start() if anchor.startswith("<") else place.end()
            line = re.sub("@", lambda _: chooser.choice(names), chooser.choice(lines))
            line = re.sub("#", lambda _: chooser.choice(words), line)
            text = text[:at] + line + "\n" + text[at:]
    return text


def spoiled(text, seed):
    """The text with a token dropped, doubled, or exchanged for another one, or two such."""
    chooser = random.Random(seed)
    for _ in range(chooser.choice([1, 1, 2])):
        tokens = list(re.finditer(r"\w+|->|::|\{\*\*|\*\*\}|[^\w\s]", text))
        one = chooser.choice(tokens)
        alike = [each for each in tokens if each.group().isalnum() == one.group().isalnum()]
        other = chooser.choice(alike)
        news = [other.group()] * 4 + ["", one.group() + " " + one.group(),
                                      other.group() + " " + one.group()]
        new = chooser.choice(news)
        text = text[:one.start()] + new + text[one.end():]
    return text


def below(kind, depth):
    """The paths and kinds of the components below a classifier."""
    found = []
    for name, child in kind.children.items():
        found.append((name, child))
        if depth > 1:
            found += [(f"{name}.{path}", each) for path, each in below(child, depth - 1)]
    return found


def model(seed):
    """The text and the root of the model of a seed."""
    return Maker(seed).model()
