"""Sets into a text what a review tells as not looked at: modes, bindings of every form, rates in
error model text and in core text, and sets of sinks."""

import random
import re

import rated

CATEGORIES = (r"(?:system|device|process|processor|memory|bus|abstract|thread|data"
              r"|virtual processor|virtual bus)")
MEMBERS = re.compile(rf"\b\w+: (?:refined to )?(?:{CATEGORIES}|(?:\w+ )?port|feature|parameter"
                     r"|(?:\w+ )*access|in out \w+ port)\b[^;{}]*(?=;)")
ENDS = re.compile(r"\bend (?!(?:propagations|component|composite|types|behavior|paths)\b)\w[\w:.]*;")
CLAUSES = re.compile(r"\*\*\}\s*;?\s*(?=end \w+(?:\.\w+)?;)")
MACHINES = re.compile(r"(?=end behavior;)")
SINKS = re.compile(r"\berror sink (\w+)(?:\s*\{[^}]*\})?(?=;)")
INWARD = re.compile(r"\b(\w+): in propagation \{([^}]*)\}")
FLOWS = re.compile(r"\bflows\n(?=\w+: error )|\bflows (?=\w+: error )")

NAMES = ["Actual_Processor_Binding", "Actual_Memory_Binding", "Actual_Connection_Binding",
         "Actual_Function_Binding", "Deployment_Properties::Actual_Processor_Binding",
         "Deployment_Properties::Actual_Connection_Binding", "My_Set::Actual_Processor_Binding",
         "Allowed_Processor_Binding", "Actual_Subprogram_Call_Binding", "deployment::x_BINDING",
         "Allowed_Processor_Binding_Class", "Binding", "My_Set::Binding", "Not_Collocated",
         "Actual_Bindings"]
VALUES = ["(reference (@))"] * 6 + [
    "reference (@)", "(reference (@), reference (@))", "(reference (@.@))", "(reference (@[1]))",
    "(classifier (@))", "()", "(reference (@),)", "1", "[x => 1 in modes (m);]",
    "[x_binding => (reference (@));]", "(reference (nowhere))"]
APPLIES = [" applies to @"] * 6 + ["", "", " applies to @, @.@", " applies to @.@",
                                   " in modes (m) applies to @", " applies to @[1]",
                                   " applies to @, ", " applies nothing"]
BEHIND = [""] * 8 + [" in modes (m)", " in modes (m, n)", " in modes", " in binding (x)", " in",
                     " in modes (m) in modes (n)", " in (modes)"]
SIGNS = ["=>"] * 12 + ["+=>", "=", ""]
RATES = ["EMV2::OccurrenceDistribution"] * 4 + [
    "OccurrenceDistribution", "emv2::OCCURRENCEDISTRIBUTION", "My_Set::OccurrenceDistribution",
    "OccurrenceDistributions", "Occurrence", "EMV2::Severity"]
RATE_VALUES = ["[ProbabilityValue => 1.0e-5; Distribution => Poisson;]"] * 4 + [
    "3", "(reference (x) applies to y)", "[x => 1 applies to y;]", '"applies to z"', ""]
RATE_APPLIES = [" applies to @.e"] * 4 + [
    "", "", " applies to @", " applies to @.@.E, @.f", " applies to @[1].e", " applies to ^@@e",
    ' applies to @."x".e', " applies to ", " applies @", " applies to @ (in modes) . e",
    " applies to to", " applies to @.e applies to @.f", " in modes (m) applies to @"]
MODES = [" in modes (m)", " in modes (m, n)", " in modes (m -> n)"]


class Setter:
    """Sets lines into one text."""

    def __init__(self, text, seed, keys):
        self.random = random.Random(f"unread {seed}")
        self.pick, self.text = self.random.choice, sinks(random.Random(f"sinks {seed}"), text)
        self.keys = keys or [("e",)]
        self.words = sorted(set(re.findall(rf"\b(\w+): {CATEGORIES}\b", text))
                            | set(re.findall(r"\b(\w+): (?:port|bus access)\b", text))) or ["x"]

    def names(self, text):
        """A text with a name for each `@`."""
        return re.sub("@", lambda _: self.pick(self.words), text)

    def piece(self):
        """One property, most often a binding or a rate."""
        if self.random.random() < 0.3:
            text = f"{self.pick(RATES)} {self.pick(SIGNS)} {self.pick(RATE_VALUES)}"
            return self.names(f"{text}{self.pick(RATE_APPLIES)}{self.pick(BEHIND)};\n")
        return self.names(f"{self.pick(NAMES)} {self.pick(SIGNS)} {self.pick(VALUES)}"
                          f"{self.pick(APPLIES)}{self.pick(BEHIND)};\n")

    def pieces(self):
        """One property or more."""
        return "".join(self.piece() for _ in range(self.pick([1, 1, 2, 3])))

    def member(self):
        """What stands behind a member."""
        braces = f" {{ {self.pieces()}}}" if self.random.random() < 0.7 else ""
        if self.random.random() < 0.05:
            braces = " {}"
        return braces + (self.pick(MODES) if not braces or self.random.random() < 0.3 else "")

    def target(self):
        """A target of a rate: of an event, or nearly so."""
        key = self.pick(self.keys)
        roll = self.random.random()
        if roll < 0.15:
            key = key[self.random.randrange(len(key)):]
        elif roll < 0.3:
            key = (self.pick(self.words),) + key
        elif roll < 0.4:
            key = key[:-1] + (self.pick(["ok", "bad", "zz", "failed"]),)
        elif roll < 0.45:
            key += (self.pick(["a", "b", "t"]),)
        text = ".".join(key)
        roll = self.random.random()
        if roll < 0.05:
            return self.pick(["^" + text, text.replace(".", "@", 1) + "@e", text + "."])
        return text.upper() if roll < 0.1 else text

    def rates(self):
        """A block of rates."""
        text = ""
        for _ in range(self.pick([1, 1, 2])):
            names = self.pick(rated.NAMES * 4 + rated.ODD_NAMES)
            targets = ", ".join(self.target() for _ in range(self.pick([1, 1, 2, 3])))
            applies = f" applies to {targets}" if self.random.random() < 0.95 else ""
            text += f"{names} {self.pick(['=>', '=>', '=>', '+=>'])} {rated.value(self.random)}"
            text += f"{applies};\n"
        return f" properties\n{text}"

    def changed(self):
        """The text with some lines set in."""
        places = []
        for found in MEMBERS.finditer(self.text):
            places.append((found.end(), self.member))
        for found in ENDS.finditer(self.text):
            places += [(found.start(), lambda: f" properties {self.pieces()}")] * 2
        for found in CLAUSES.finditer(self.text):
            places += [(found.start(), self.rates)] * 3
        for found in MACHINES.finditer(self.text):
            places += [(found.start(), self.rates)] * 3
        chosen = self.random.sample(places, min(len(places), self.random.randint(1, 8)))
        text = self.text
        for at, write in sorted(chosen, key=lambda place: place[0], reverse=True):
            text = text[:at] + write() + text[at:]
        return text


def sinks(chooser, text):
    """The text with sinks that take some of the types of their points, and with more sinks."""
    def declared(found):
        """The types of the points that are declared in the annex before a place."""
        begin = found.string.rfind("error propagations", 0, found.start())
        points = {}
        for point, types in INWARD.findall(found.string[max(begin, 0):found.start()]):
            types = [each.strip() for each in types.split(",")]
            points[point] = [each for each in types if re.fullmatch(r"\w+", each)
                             and each != "noerror"]
        return {point: types for point, types in points.items() if types}

    def some(types):
        """A set of some types."""
        return " {" + ", ".join(chooser.sample(types, chooser.randint(1, len(types)))) + "}"

    def sink(found):
        """A sink, perhaps with another set."""
        types = declared(found).get(found.group(1))
        has_set = types and chooser.random() < 0.7
        return f"error sink {found.group(1)}{some(types)}" if has_set else found.group()

    def flow(found):
        """The word `flows`, perhaps with a sink."""
        known = sorted(declared(found).items())
        if not known or chooser.random() < 0.6:
            return found.group()
        point, types = chooser.choice(known)
        return found.group() + f"z{chooser.randint(0, 9)}: error sink {point}{some(types)}; "

    return FLOWS.sub(flow, SINKS.sub(sink, text))


def changed(text, seed, keys):
    """A text with lines set in; `keys` are paths and keys of events that it has."""
    return Setter(text, seed, keys).changed()
