"""Small systems of few names in which things are hidden, unused and looped: for `review`."""

import rated

LIBRARY = """annex emv2 {{** error types a: type; b: type; c: type extends a; end types;
error behavior m events e: error event; f: error event {{a, b}}; g: error event;
states ok: initial state; bad: state; worse: state {{a, c}}; lost: initial state {{b}};
transitions {transitions} {properties} end behavior;
error behavior k states ok: initial state; bad: state; worse: state {{a, c}};
lost: initial state {{b}}; end behavior; **}};
"""

# The sets that may stand where one of these is declared; None is an open side.
WITHIN = {"{a, b, c}": ["{a}", "{b}", "{c}", "{a, b}", "{b, c}"], "{a, b}": ["{a}", "{b}", "{c}"],
          "{a}": ["{a}", "{c}"], "{b}": ["{b}"], "{c}": ["{c}"], "{noerror}": [],
          None: ["{a}", "{b}", "{c}", "{a, b}"]}
STATES = ["ok", "bad", "bad", "worse", "worse{a}", "worse{c}", "lost", "lost{b}"]
EVENTS = ["e", "e", "g", "f", "f{a}", "f{b}"]
ENDS = {"in": ["i", "j", "x"], "out": ["o", "n", "x"]}
WORD_POINTS = ["processor", "bindings"]


class Slips:
    """Writes one small system."""

    def __init__(self, chooser):
        self.random = self.rates = chooser
        self.pick, self.sides = chooser.choice, {}

    def some(self, most, write):
        """None or more lines."""
        return "\n".join(write() for _ in range(self.random.randint(0, most)))

    def used(self, direction):
        """A point, and perhaps a set within what is declared for its side."""
        point, declared = self.pick([(point, declared) for (point, its), declared
                                     in self.sides.items() if its == direction])
        return point + (self.pick(WITHIN[declared] or [""]) if self.random.random() < .5 else "")

    def trigger(self, has_events):
        """An event, or a point with an inward side."""
        if has_events and self.random.random() < .5:
            return self.pick(EVENTS)
        return ("in " if self.random.random() < .3 else "") + self.used("in")

    def condition(self, write):
        """A condition of names that `write` gives."""
        form = self.pick(["{}"] * 6 + ["{} or {}", "{} and {}", "2 ormore ({}, {}, {})",
                                       "0 ormore ({})", "2 ormore ({})", "{} and ({} or {})"])
        return form.format(write(), write(), write())

    def transition(self, write):
        """A transition, with branches sometimes."""
        goal = self.pick(STATES)
        if self.random.random() < .2:
            goal = f"({goal} with 0.5, {self.pick(STATES + ['same state'])} with others)"
        return f"{self.pick(STATES + ['all'])} -[{self.condition(write)}]-> {goal};"

    def propagations(self):
        """Propagations; what a side has is noted."""
        text = ""
        for direction in ("in", "out"):
            for point in ENDS[direction] + WORD_POINTS:
                if point not in WORD_POINTS:
                    self.sides.setdefault((point, direction), None)
                if self.random.random() < .6 and not self.sides.get((point, direction)):
                    types = self.pick(["{a}", "{a, b}", "{a, b}", "{c}", "{b}", "{noerror}",
                                       "{a, b, c}", "{a, b, c}", "{a, b, c}"])
                    text += f"{point}: {direction} propagation {types};\n"
                    self.sides[point, direction] = types
        return text

    def flow(self, has_states):
        """A flow of one of six names."""
        name, start, goal = f"w{self.random.randint(0, 5)}", self.used("in"), self.used("out")
        when = f" when {self.pick(STATES)}" if has_states and self.random.random() < .5 else ""
        return self.pick([
            f"{name}: error source {goal}{when};", f"{name}: error path {start} -> {goal};",
            f"{name}: error path {start} -> {goal};", f"{name}: error sink {start};",
            f'{name}: error source {goal} when "x";'])

    def outgoing(self, machine):
        """An outgoing condition."""
        source = self.pick(STATES + ["all"]) if machine else "all"
        inner = ""
        if self.random.random() < .5:
            inner = self.condition(lambda: self.trigger(machine == "m"))
        return f"{source} -[{inner}]-> {self.used('out')};"

    def clause(self, name, machine, composite):
        """A clause of the device `d`, of the system `t` or of the system `s`."""
        keys = ["e", "f", "g", "w0", "w1", "i.a", "j.b", "x.c", "processor.a", "bindings.b"]
        keys += [f"{path}.{key}" for path in ("u", "v", "t.u") for key in keys] if composite else []
        text = "annex emv2 {** use types p; "
        text += f"use behavior {machine};\n" if machine else "\n"
        text += "error propagations " + (self.propagations() if not composite else "")
        text += f"flows {self.some(4, lambda: self.flow(machine))}\n"
        text += "end propagations;\ncomponent error behavior\n"
        if machine == "m":
            text += "transitions " + self.some(
                3, lambda: self.transition(lambda: self.trigger(True))) + "\n"
        text += f"propagations {self.some(2, lambda: self.outgoing(machine))}\n"
        text += "end component;\n"
        if composite and machine and self.random.random() < .6:
            below = ["u.bad", "v.bad", "u.worse", "v.worse{a}", "in i", "in x"]
            below += ["t.bad"] if name == "s" and self.has_machine else []
            text += "composite error behavior states\n" + self.some(3, lambda: (
                f"[{self.condition(lambda: self.pick(below))}]-> {self.pick(STATES[:6])};"))
            text += "\n" + self.pick(["", "", "[others]-> ok;\n"]) + "end composite;\n"
        if composite:
            text += "propagation paths y: propagation point; z: propagation point;\n"
            text += self.some(3, lambda: self.path(name)) + "\nend paths;\n"
        return text + rated.block(self.random, keys, 4) + "**};\n"

    def path(self, name):
        """A user path."""
        ends = ["u.o", "v.i", "x", "i", "o", "u.bindings", "v.processor", "y", "z", "bindings",
                "memory", "u.connection"] + (["t.u.n", "t.x"] if name == "s" else [])
        number = self.random.randint(0, 3)
        return f"q{number}: {self.pick(ends)} -> {self.pick(ends)};"

    def connection(self, number, parts):
        """A connection, whichever way round."""
        ends = ["i", "o", "x", "j", "n"] + [f"{part}.{point}" for part in parts
                                            for point in "ijonx"]
        odd = ["processor.i", "processor", "self.o", "self", "bindings", "v.bindings"]
        start, goal = self.pick(ends * 2 + odd), self.pick(ends * 2 + odd)
        kind = self.pick(["port", "feature", "data access", "parameter"])
        if kind == "data access" and self.random.random() < .5:
            start = self.pick(parts)
        return f"l{number}: {kind} {start} {self.pick(['->', '->', '<->'])} {goal};"

    def system(self, name, features):
        """A system of two devices, and `s` of a system too."""
        machine, parts = self.pick(["m", "m", "k", "k", ""]), "uv" + ("t" if name == "s" else "")
        self.sides = {}
        text = f"system {name} features {features}\n{self.clause(name, machine, False)}"
        text += (f"end {name};\nsystem implementation {name}.i subcomponents "
                 + "u: device d; v: device d;" + (" t: system t.i;" if name == "s" else "") + "\n")
        text += "connections " + "\n".join(
            self.connection(number, parts) for number in range(self.random.randint(2, 9))) + "\n"
        if self.random.random() < .4:
            text += ("properties actual_processor_binding => "
                     f"(reference ({self.pick('uv')})) applies to {self.pick('uv')};\n")
        if self.random.random() < .7:
            text += self.clause(name, machine, True)
        self.has_machine = machine != ""
        return text + f"end {name}.i;\n"

    def text(self):
        """The text of a package with a device, two systems and their implementations."""
        features = "i: in feature; j: in feature; o: out feature; n: out feature; x: feature;"
        text = "package p public\n" + LIBRARY.format(
            transitions=self.some(3, lambda: self.transition(lambda: self.pick(EVENTS))),
            properties=rated.block(self.random, ["e", "f", "g", "w0", "i.a"], 2))
        text += f"device d features {features}\n{self.clause('d', 'm', False)}end d;\n"
        return text + self.system("t", features) + self.system("s", features) + "end p;\n"


def slips(chooser):
    """The text and the root of a small system."""
    return Slips(chooser).text(), chooser.choice(["p::s.i", "p::s.i", "p::t.i"])
