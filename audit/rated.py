"""Rates for random models: associations of the occurrence property, most of them right."""

NUMBERS = ["1.0e-5", "2.0E-6", "0.25", "1", "3e+4", "1_000.5", "16#1f#", "0", "00.10"]
ODD_NUMBERS = ["-1.0e-5", "+ 2.0", "1.0 perhour", "p::rate", "(0.5)", "", "\"0.5\"", "0.1, 0.2"]
LAWS = ["Poisson", "Exponential", "Fixed", "fixed", "POISSON"]
ODD_LAWS = ["Normal", "Binomial", "", "Fixed ()", "EMV2::Fixed", "\"Fixed\"", "(Fixed)"]
NAMES = ["EMV2::OccurrenceDistribution", "OccurrenceDistribution", "emv2::occurrencedistribution"]
ODD_NAMES = ["EMV2::Severity", "EMV::OccurrenceDistribution", "EMV2::OccurrenceDistribution::x",
             "Distribution"]


def value(chooser):
    """The text of a value."""
    roll = chooser.random()
    number = chooser.choice(NUMBERS if chooser.random() < 0.92 else ODD_NUMBERS)
    law = chooser.choice(LAWS if chooser.random() < 0.88 else ODD_LAWS)
    fields = [f"ProbabilityValue => {number};", f"Distribution => {law};"]
    if roll < 0.1:
        fields.append(chooser.choice([
            "OccurrenceRate => [x => 1; y => (2; 3);];", "Distribution => Fixed;",
            "ProbabilityValue => 0.5;", "processor => 1;", "all => 2;", "x::y => 1;", "z;",
            "Distribution +=> Fixed;", "x => ;", "=> 1;", "w => (Distribution => Fixed;);"]))
    if roll < 0.2:
        chooser.shuffle(fields)
    if roll < 0.23:
        fields = fields[1:]
    text = "[" + " ".join(fields) + "]"
    if roll > 0.97:
        text = chooser.choice(["0.5", "Fixed", text[:-2] + "]", "[]", f"({text})", text + " 1",
                               text + text, "[;]", f"[{text}]"])
    return text


def association(chooser, found):
    """One association for some of the keys."""
    names = chooser.choice(NAMES if chooser.random() < 0.93 else ODD_NAMES)
    sign = "=>" if chooser.random() < 0.9 else "+=>"
    targets = []
    for _ in range(chooser.choice([1, 1, 2, 3])):
        one = chooser.choice(found)
        targets.append(chooser.choice([one] * 30 + [
            one + "^", "@" + one, f"{one}.{one}", "." + one, one + "."]))
    applies = f" applies to {', '.join(targets)}" if chooser.random() < 0.95 else ""
    return f"{names} {sign} {value(chooser)}{applies};\n"


def block(chooser, found, most):
    """A block of properties for these keys, or none."""
    if not found or chooser.random() < 0.2:
        return ""
    count = chooser.randint(1, most)
    return "properties\n" + "".join(association(chooser, found) for _ in range(count))


def key(maker, kind):
    """The key of an event that a classifier may have; sometimes of one that it has not."""
    chooser = maker.rates
    events = list(kind.events) + list(kind.machine[1] if kind.machine else [])
    inward = [(point, terms) for (point, side), terms in kind.sides.items()
              if side == "in" and (terms or chooser.random() < 0.1)]
    roll = chooser.random()
    if roll < 0.5 and events:
        return chooser.choice(events)
    if roll < 0.75 and inward:
        point, terms = chooser.choice(inward)
        name = chooser.choice((terms or []) + maker.plain)
        return f"{point}.{name.rpartition('::')[2]}"
    return f"w{chooser.randint(0, 4)}"


def keys(maker, kind, below):
    """Keys for a clause of a classifier, half of them of components below."""
    found = [key(maker, kind) for _ in range(4)]
    for _ in range(4 if below else 0):
        path, child = maker.rates.choice(below)
        found.append(f"{path}.{key(maker, child)}")
    return found
