"""Small texts in which few names meet often: for the rules that whole models seldom reach."""

import random

from lanes import lanes
from slips import slips

FEATURES = ["in feature", "feature", "out data port", "in out event port", "feature group",
            "requires data access"]
PARTS = ["device e", "device e", "device", "system t1.i", "system t0", "device e (x => y)",
         "device z", "device q::e"]
DEVICE = ("package p public annex emv2 {** error types l: type; end types; error behavior m "
        "events x: error event; states s: initial state; f: state; transitions s -[x]-> f; "
        "end behavior; **};\n"
        "device e features o: out feature; i: in feature; annex emv2 {** use types p; "
        "use behavior m; error propagations o: out propagation {l}; i: in propagation {l}; "
        "flows g: error source o; end propagations; **}; end e;\n")


def types(chooser):
    """Three libraries whose items name each other, and a device that uses them."""
    libraries, names, text = ["p", "q", "r"], ["a", "b", "c", "d"], ""

    def name():
        one = chooser.choice(names)
        return f"{chooser.choice(libraries + ['z', 'k'])}::{one}" if chooser.random() < .3 else one

    def uses():
        return "".join(f"use types {chooser.choice(libraries * 3 + ['z', 'k'])};\n"
                       for _ in range(chooser.choice([0, 1, 1, 2])))

    def terms():
        found = [name() for _ in range(chooser.randint(1, 3))]
        odd = ["noerror", name() + " * " + name()] if chooser.random() < .1 else []
        return "{" + ", ".join(found + ([chooser.choice(odd)] if odd else [])) + "}"

    def item():
        one = chooser.choice(names)
        return chooser.choice([
            f"{one}: type;", f"{one}: type;", f"{one}: type extends {name()};",
            f"{one}: type set {terms()};", f"{one} renames type {name()};",
            f"{one} renames type set {name()};"]) + "\n"

    for library in libraries:
        extends = ""
        if chooser.random() < .4:
            extends = f"extends {chooser.choice(libraries + ['z'])} with\n"
        items = "".join(item() for _ in range(chooser.randint(1, 4)))
        alias = f"k renames package {chooser.choice(libraries + ['z'])};"
        text += (f"package {library} public {alias if chooser.random() < .5 else ''}\n"
                 f"annex emv2 {{** error types {uses()}{extends}{items}end types; **}};\n")
        if library == "p":
            text += (f"device s features i: in feature; o: out feature; annex emv2 {{** {uses()}"
                     f"error propagations i: in propagation {terms()}; o: out propagation "
                     f"{terms()}; flows f: error path i -> o; g: error source o{terms()}; "
                     f"end propagations; **}}; end s;\n")
        text += f"end {library};\n"
    return text, "p::s"


def families(chooser):
    """Libraries without faults, most often: each item names items before it."""
    known, libraries, text = [], [], ""

    def terms(most):
        chosen = [chooser.choice(known) for _ in range(chooser.randint(1, most))]
        return "{" + ", ".join(chosen) + "}"

    for library in ("p", "q", "r::s"):
        uses = "".join(f"use types {each};\n" for each in libraries if chooser.random() < .3)
        above = [each for each in libraries if chooser.random() < .4]
        items, own = "", []
        for number in range(chooser.randint(2, 5)):
            one = chooser.choice(["a", "b", "c"]) + str(number)
            plain = [name for name, is_type in own if is_type]
            if known and chooser.random() < .3:
                items += f"{one}: type set {terms(3)};\n"
            elif plain and chooser.random() < .3:
                items += f"{one} renames type {library}::{chooser.choice(plain)};\n"
            else:
                extended = plain and chooser.random() < .6
                extends = f" extends {chooser.choice(plain)}" if extended else ""
                items += f"{one}: type{extends};\n"
            own.append((one, "type set" not in items.splitlines()[-1]))
            known.append(f"{library}::{one}")
        extends = f"extends {', '.join(above)} with\n" if above else ""
        text += (f"package {library} public annex emv2 {{** error types {uses}{extends}{items}"
                 f"end types; **}}; end {library};\n")
        libraries.append(library)
    order = libraries[:]
    chooser.shuffle(order)
    known += [name.rsplit("::", 1)[1] for name in known]
    side = terms(3)
    text += (f"package d public device s features i: in feature; o: out feature; n: out feature;\n"
             f"annex emv2 {{** use types {', '.join(order)}; error propagations\n"
             f"i: in propagation {side}; o: out propagation {terms(4)};\n"
             f"flows f: error path i{side} -> o; g: error path i -> n{terms(2)};\n"
             f"h: error source n{terms(2)}; end propagations; **}}; end s; end d;\n")
    return text, "d::s"


def chain(chooser, section, feature, part, connection):
    """Three types and three implementations, each of which extends the one before it."""
    text = DEVICE
    for number in range(3):
        above = "" if number == 0 else f"extends t{number - 1}"
        text += (f"system t{number} {above} {section('features', feature)}"
                 f"{section('features', feature) if chooser.random() < .2 else ''}"
                 f"end t{number};\n")
    for number in range(3):
        above = "" if number == 0 else f"extends t1.{'ijk'[number - 1]}"
        sections = [section("subcomponents", part), section("connections", connection)]
        sections += [section("features", feature)] if chooser.random() < .2 else []
        chooser.shuffle(sections)
        text += (f"system implementation t1.{'ijk'[number]} {above} {''.join(sections)}"
                 f"end t1.{'ijk'[number]};\n")
    return text


def members(chooser):
    """A chain of classifiers whose members have few names."""
    names = ["a", "b", "c"]

    def feature():
        kind = chooser.choice(FEATURES)
        return f"{refined()}{kind}{array()};"

    def refined():
        return "refined to " if chooser.random() < .5 else ""

    def array():
        return " [2]" if chooser.random() < .12 else ""

    def part():
        kind = chooser.choice(PARTS)
        return f"{refined()}{kind}{array()};"

    def end():
        return chooser.choice([chooser.choice(names), chooser.choice(names) + ".o",
                               chooser.choice(names) + ".i", "processor.a", "self.a.b", "a.b.c"])

    def connection():
        ends = f" {end()} {chooser.choice(['->', '<->'])} {end()}"
        prefix = refined()
        ends = "" if prefix and chooser.random() < .5 else ends
        kind = chooser.choice(["port", "feature", "data access", "feature group"])
        return f"{prefix}{kind}{ends}{array()};"

    def section(word, read):
        lines = " ".join(f"{chooser.choice(names)}: {read()}"
                         for _ in range(chooser.choice([0, 1, 1, 2])))
        return f"{word} {lines}\n"

    text = chain(chooser, section, feature, part, connection)
    return text + "end p;", "p::" + chooser.choice(["t1.i", "t1.j", "t1.k", "t2"])


def names(chooser):
    """Packages, classifiers and aliases of few names that refer to each other."""
    packages, kinds = ["p", "q", "p::q"], ["a", "b", "c"]

    def reference():
        package = chooser.choice(["", "", "p::", "q::", "p::q::", "k::", "z::"])
        return package + chooser.choice(kinds) + chooser.choice(["", "", ".i", ".j"])

    def alias():
        package = chooser.choice(packages + ["z", "k"])
        return chooser.choice([
            f"k renames package {package};", f"q renames package {package};",
            f"{chooser.choice(kinds)} renames device {package}::{chooser.choice(kinds)};",
            f"renames device {package}::{chooser.choice(kinds)};"])

    text = ""
    for package in packages:
        if chooser.random() < .1:
            package = chooser.choice(packages)
        text += f"package {package} public\n"
        for _ in range(chooser.randint(0, 2)):
            text += alias() + "\n"
        for kind in kinds:
            if chooser.random() < .75:
                extends = f"extends {reference()}" if chooser.random() < .4 else ""
                extra = "prototypes x: device;" if chooser.random() < .05 else ""
                text += f"device {kind} {extends} {extra} end {kind};\n"
            for item in "ij":
                if chooser.random() < .5:
                    extends = f"extends {reference()}" if chooser.random() < .4 else ""
                    part = f"x: device {reference()};" if chooser.random() < .7 else ""
                    text += (f"device implementation {kind}.{item} {extends} subcomponents "
                             f"{part} end {kind}.{item};\n")
        text += f"end {package};\n"
    root = chooser.choice(packages) + "::" + chooser.choice(kinds)
    return text, root + chooser.choice(["", ".i", ".j"])


def tokens(chooser):
    """Pieces of tokens in the places where nearly all tokens are read past."""
    pieces = ["(", ")", "[", "]", "{", "}", "{**", "**}", "\"a\"", "\"\\\"\"", "1.5e-3", "16#f_0#",
              "1_", "1..2", ".", "..", "a", "a_b", "end", ";", "applies", "to", "=>", "+=>", "->",
              "<->", "-", "--x\n", "emv2", "annex", "none", "in", "::", "features", "properties",
              "*", "1e", "1.e5", "1#g#", "@", "!", "&", "|", "^", "e", "error", "_", "$", "\"",
              "'", "\\", "a__b", "end s", "flows", "\x0b"]
    weights = [1 if piece in ("_", "$", "\"", "'", "\\", "a__b", "\x0b", "{**", "**}") else 6
               for piece in pieces]

    def some():
        found = chooser.choices(pieces, weights, k=chooser.randint(0, 5))
        return chooser.choice(["", " "]).join(found)

    return (chooser.choice([
        f"package p public system s properties {some()} end s; end p;",
        f"package p public system s flows {some()} ; end s; end p;",
        f"package p public system s prototypes {some()} end s; end p;",
        f"package p public system s features a: feature {some()} ; end s; end p;",
        f"property set x is {some()} end x; package p public system s end s; end p;",
        f"package p public system s annex x {{** {some()} **}}; end s; end p;",
        f"package p public feature group f {some()} end f; system s end s; end p;",
        f"package p public system s annex emv2 {{** properties a => {some()} ; **}}; end s; "
        "end p;",
        f"package p public annex emv2 {{** error types a: type {some()} ; end types; **}}; "
        "system s end s; end p;",
        f"package p public annex emv2 {{** type mappings a {some()} end mappings; **}}; "
        "system s end s; end p;",
        f"package p public system s annex emv2 {{** component error behavior detections {some()} "
        "end component; **}; end s; end p;",
        f"package p public system s annex emv2 {{** error propagations a: in propagation {{b}} "
        f"{some()} ; flows f: error sink a {some()}; end propagations; **}}; end s; end p;",
        f"package p public system s features a: in data port; end s {some()} ; end p; {some()}",
    ]), "p::s")


KINDS = [types, members, names, tokens, families] * 3 + [slips] * 4 + [lanes]


def corner(seed):
    """The text and the root of a corner."""
    chooser = random.Random(seed)
    return KINDS[seed % len(KINDS)](chooser)
