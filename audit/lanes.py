"""Systems of lanes and voters, with shared parts and feedback: for sets of several events."""

import rated

LIBRARY = """package p public annex emv2 {{** error types a: type; b: type; end types;
error behavior m events e: error event; f: error event; g: error event {{a, b}};
states ok: initial state; bad: state; worse: state;
transitions {transitions} {properties} end behavior;
error behavior r states up: initial state; down: state; lost: state; end behavior; **}};
"""
MOST_INPUTS = 4


class Lanes:
    """Writes one system."""

    def __init__(self, chooser):
        self.random, self.pick, self.inputs = chooser, chooser.choice, []

    def count(self, names):
        """Some of these at once: all, so many, or one."""
        if len(names) == 1:
            return names[0]
        least = self.random.randint(1, len(names))
        return self.pick([" and ".join(names), f"{least} ormore ({', '.join(names)})",
                          f"{least} ormore ({', '.join(names)})", " or ".join(names)])

    def device(self, number):
        """A device with up to so many inputs, and power."""
        points = [f"i{index}" for index in range(self.random.randint(1, MOST_INPUTS))]
        self.inputs.append(points)
        text = f"device d{number} features o: out data port; power: requires bus access;\n"
        text += " ".join(f"{point}: in data port;" for point in points)
        text += "\nannex emv2 {** use types p; use behavior p::m; error propagations\n"
        text += "o: out propagation {a, b}; power: in propagation {a};\n"
        text += "processor: in propagation {b}; "
        text += " ".join(f"{point}: in propagation {{a, b}};" for point in points)
        if self.random.random() < .4:
            text += f" flows w: error path i0{{b}} -> o; w0: error source o{{b}};"
        text += "\nend propagations; component error behavior transitions\n"
        coming = [point + self.pick(["{a}", "{b}", ""]) for point in points]
        text += f"ok -[{self.count(coming)}]-> {self.pick(['bad', 'worse'])};\n"
        shared = self.pick(["power{a}", "processor{b}", "power{a} and e", "processor{b} or power"])
        text += f"{self.pick(['ok', 'bad'])} -[{shared}]-> {self.pick(['bad', 'worse'])};\n"
        text += f"propagations {self.pick(['bad', 'bad', 'worse'])} -[]-> o{{a}};\n"
        if self.random.random() < .6:
            text += f"all -[{self.count(coming + ['e'])}]-> o{{a}};\n"
        if self.random.random() < .6:
            text += f"worse -[{self.pick(['', 'f', 'g', 'g{a} and f'])}]-> o{self.pick(['', '{b}'])};\n"
        keys = ["e", "f", "g", "w0", "i0.a", "power.a"]
        return text + f"end component; {rated.block(self.random, keys, 3)}**}};\nend d{number};\n"

    def text(self):
        """The text of a package with some devices, a bus, a processor and a system of them."""
        text = LIBRARY.format(
            transitions=self.pick([
                "ok -[e]-> bad; bad -[f]-> worse;", "ok -[e and f]-> bad; ok -[g]-> worse;",
                "ok -[2 ormore (e, f, g)]-> bad; bad -[g{b}]-> worse; worse -[e]-> bad;",
                "ok -[e]-> (bad with 0.5, worse with 0.5);"]),
            properties=rated.block(self.random, ["e", "f", "g"], 2))
        kinds = self.random.randint(1, 3)
        text += "".join(self.device(number) for number in range(kinds))
        for name, word in (("bus l", "access"), ("processor c", "bindings")):
            types = "{a}" if word == "access" else "{b}"
            text += (f"{name} annex emv2 {{** use types p; use behavior p::m; error propagations "
                     f"{word}: out propagation {types}; end propagations; component error "
                     f"behavior propagations {self.pick(['bad', 'worse'])} -[]-> {word}; "
                     f"end component; **}};\nend {name[-1]};\n")
        return text + self.system(kinds) + "end p;\n"

    def system(self, kinds):
        """The system; a part is fed by earlier ones, and seldom by a later one."""
        names = [f"x{number}" for number in range(self.random.randint(2, 9))]
        chosen = [self.random.randrange(kinds) for _ in names]
        parts = "".join(f"{name}: device d{kind};\n" for name, kind in zip(names, chosen))
        links, number = "", 0
        for at, name in enumerate(names):
            for point in self.inputs[chosen[at]] if at > 1 else []:
                if self.random.random() < .85:
                    feedback = self.random.random() < .1
                    start = self.pick(names if feedback else names[:at])
                    links += f"k{number}: port {start}.o -> {name}.{point};\n"
                    number += 1
            if self.random.random() < .7:
                links += f"k{number}: bus access {self.pick(['l1', 'l2'])} -> {name}.power;\n"
                number += 1
        links += f"k{number}: port {self.pick(names)}.o -> o;\n"
        bound = [name for name in names if self.random.random() < .5]
        text = ("system s features o: out data port; annex emv2 {** use types p; "
                "use behavior p::r; error propagations o: out propagation {a, b}; "
                "end propagations; **};\nend s;\nsystem implementation s.i subcomponents\n"
                f"{parts}l1: bus l; l2: bus l; c1: processor c;\nconnections {links}")
        if bound:
            text += ("properties actual_processor_binding => (reference (c1)) applies to "
                     f"{', '.join(bound)};\n")
        states = [f"{name}.{self.pick(['bad', 'worse'])}" for name in names]
        some = self.random.sample(states, self.random.randint(1, min(5, len(states))))
        text += ("annex emv2 {** composite error behavior states "
                 f"[{self.count(some)}]-> down; [{self.count(states)}]-> lost; end composite;\n")
        keys = [f"{name}.{key}" for name in names for key in ("e", "f", "g", "i0.a", "power.a")]
        return text + rated.block(self.random, keys, 6) + "**};\nend s.i;\n"


def lanes(chooser):
    """The text and the root of a system."""
    return Lanes(chooser).text(), "p::s.i"
