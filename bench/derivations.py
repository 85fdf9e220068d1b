#!/usr/bin/env python3
"""Derivations of large models, and hostile ones: how long `why` and `confirm` take.

    derivations.py --tool PROGRAM [--seconds N] [--megabytes N] [--worst]    runs both over each, and prints two tables

The text of each derivation is known from the shape, and so is what is wrong with each hostile one, so each run is also a test: where
another byte was printed, or another line stands on the error stream, the table says `WRONG`. `--worst` adds the one kind of text that
costs more than its length: a long formula that is evaluated in each of 100,000 steps.
"""

import argparse
import sys
import tempfile
from dataclasses import dataclass
from pathlib import Path

sys.dont_write_bytecode = True
import shapes
from run import run

LONGEST = 4_194_304


@dataclass
class Question:
    """A model, a fact, a set of events, and the derivation."""

    about: str
    root: str
    model: str
    target: str
    events: str
    facts: int
    lines: list  # those of the derivation

    def text(self):
        return "".join(f"{line}\n" for line in self.lines)


def numbered(steps):
    """The lines of steps of which each has a fact and what stands behind it."""
    return [f"{number} {step}" for number, step in enumerate(steps, 1)]


def chain(count):
    """States one after the other, each by one event from the one before."""
    states = [shapes.INITIAL] + [f"s{n}" for n in range(1, count + 1)]
    steps = [(states[i], "e", states[i + 1]) for i in range(count)]
    lines = ["root/state:ok"] + [f"root/state:s{n} root/e #{n}" for n in range(1, count + 1)]
    return Question(f"a chain of {count:,} states", "p::s", shapes.aadl_text(shapes.Machine(["e"], states, steps)),
                    f"root/state:s{count}", "root/e", count + 1, numbered(lines))


def star(count):
    """States that are all entered by one event, and one that wants all of them: its formula has `count` facts."""
    parts = "\n".join(f"x{n}: device d;" for n in range(1, count + 1))
    wants = " and ".join(f"x{n}.bad" for n in range(1, count + 1))
    model = f"""package p public
annex EMV2 {{**
error types t: type; end types;
error behavior m states ok: initial state; bad: state; end behavior;
error behavior w events e: error event; states ok: initial state; bad: state; transitions ok -[e]-> bad; end behavior;
**}};
device source features o: out data port; annex EMV2 {{** use types p; use behavior p::w; error propagations o: out propagation {{t}}; end propagations;
component error behavior propagations bad -[]-> o{{t}}; end component; **}}; end source;
device d features i: in data port; annex EMV2 {{** use types p; use behavior p::m; error propagations i: in propagation {{t}}; end propagations;
component error behavior transitions ok -[i{{t}}]-> bad; end component; **}}; end d;
system s end s;
system implementation s.i
subcomponents
src: device source;
{parts}
connections
""" + "\n".join(f"c{n}: port src.o -> x{n}.i;" for n in range(1, count + 1)) + f"""
annex EMV2 {{** use behavior p::m; composite error behavior states [{wants}]-> bad; end composite; **}};
end s.i;
end p;
"""
    # round 1: the initial states; 2: the source; 3: what it sends; 4: what arrives; 5: the parts; 6: the whole
    lines = ["root.src/state:ok"] + [f"root.x{n}/state:ok" for n in range(1, count + 1)]
    lines += ["root.src/state:bad root.src/e #1", f"root.src/out:o{{p::t}} #{count + 2}"]
    lines += [f"root.x{n}/in:i{{p::t}} #{count + 3}" for n in range(1, count + 1)]
    lines += [f"root.x{n}/state:bad #{n + 1} #{count + 3 + n}" for n in range(1, count + 1)]
    lines += ["root/state:bad" + "".join(f" #{2 * count + 3 + n}" for n in range(1, count + 1))]
    return Question(f"{count:,} parts that one source brings down", "p::s.i", model, "root/state:bad", "root.src/e",
                    3 * count + 5, numbered(lines))


def types_on_the_way(parts, types):
    """A source of all types, parts one after the other that hand them on, and an end that wants all types."""
    names = [f"t{n}" for n in range(1, types + 1)]
    model = f"""package p public
annex EMV2 {{**
error types {' '.join(f'{name}: type;' for name in names)} every: type set {{{', '.join(names)}}}; end types;
**}};
device source features o: out data port; annex EMV2 {{** use types p; error propagations o: out propagation {{every}};
flows e: error source o{{every}}; end propagations; **}}; end source;
device d features i: in data port; o: out data port; annex EMV2 {{** use types p; error propagations i: in propagation {{every}}; o: out propagation {{every}};
flows f: error path i{{every}} -> o; end propagations; **}}; end d;
device sink features i: in data port; o: out data port; annex EMV2 {{** use types p; error propagations i: in propagation {{every}}; o: out propagation {{t1}}; end propagations;
component error behavior propagations all -[{' and '.join(f'i{{{name}}}' for name in names)}]-> o{{t1}}; end component; **}}; end sink;
system s end s;
system implementation s.i
subcomponents
x0: device source;
""" + "\n".join(f"x{n}: device d;" for n in range(1, parts + 1)) + f"\nx{parts + 1}: device sink;\nconnections\n" + "\n".join(
        f"c{n}: port x{n}.o -> x{n + 1}.i;" for n in range(parts + 1)) + "\nend s.i;\nend p;\n"
    lines = [f"root.x0/out:o{{p::{name}}} root.x0/e" for name in names]
    lines = [line.replace("/e", "/source:e") for line in lines]
    at = 0
    for n in range(1, parts + 1):
        for side in ("in:i", "out:o"):
            lines += [f"root.x{n}/{side}{{p::{name}}} #{at + k}" for k, name in enumerate(names, 1)]
            at += types
    lines += [f"root.x{parts + 1}/in:i{{p::{name}}} #{at + k}" for k, name in enumerate(names, 1)]
    at += types
    lines += [f"root.x{parts + 1}/out:o{{p::t1}}" + "".join(f" #{at + k}" for k in range(1, types + 1))]
    return Question(f"{parts:,} parts that hand on {types} types", "p::s.i", model, f"root.x{parts + 1}/out:o{{p::t1}}",
                    "root.x0/source:e", types * (2 * parts + 2) + 1, numbered(lines))


def questions():
    return [chain(25_000), chain(50_000), chain(100_000), star(1_000), star(4_000),
            types_on_the_way(500, 31), types_on_the_way(1_000, 31), types_on_the_way(2_000, 31), types_on_the_way(4_000, 32)]


SMALL = """package p public annex EMV2 {** error behavior m events e1: error event; e2: error event;
states ok: initial state; bad: state; transitions ok -[e1 and e2]-> bad; end behavior; **};
system s annex EMV2 {** use behavior p::m; **}; end s; end p;
"""


def wide(word, count):
    """A machine whose one condition has an event so often."""
    return SMALL.replace("e1 and e2", f" {word} ".join(["e1"] * count))


def filled(line):
    """As many of these lines as the longest text has room for; `line` gives that of a number."""
    lines, size = [], 0
    while True:
        one = line(len(lines) + 1)
        size += len(one) + 1
        if size > LONGEST:
            return lines
        lines.append(one)


def hostile(worst):
    """Texts with the model that they are held against, their target, and the answer: a line of the output, or of the error stream."""
    ok = lambda n: f"{n} root/state:ok"
    steps = filled(ok)
    good = lambda lines: "".join(f"{line}\n" for line in lines)
    half = [ok(n) for n in range(1, 100_001)]
    uses = "100001 root/state:bad root/e1 root/e2" + "".join(f" #{n}" for n in range(1, 100_001))
    by_all = filled(lambda n: ok(1) if n == 1 else f"{n} root/state:bad root/e1 root/e2 #1")
    wrong = by_all[:-1] + [by_all[-1].replace(" root/e2", "")]
    place = len(good(wrong[:-1]))
    thousand = filled(lambda n: ok(1) if n == 1 else f"{n} root/state:bad root/e1 #1")
    cases = [
        ("4 MB of `{`", SMALL, "{" * LONGEST, "V1 BadStepLine d.txt:0"),
        ("4 MB of line feeds", SMALL, "\n" * LONGEST, "V1 BadStepLine d.txt:0"),
        ("4 MB of blanks", SMALL, " " * LONGEST, "V1 BadStepLine d.txt:0"),
        ("a number of 4 MB", SMALL, "1" * (LONGEST - 1) + "\n", "V1 BadStepLine d.txt:0"),
        ("a name of 4 MB", SMALL, "1 root/state:" + "k" * (LONGEST - 14) + "\n", "V1 BadStepLine d.txt:0"),
        ("a use of 4 MB", SMALL, "1 root/state:ok\n2 root/state:ok #" + "1" * (LONGEST - 34) + "\n", "V1 BadStepLine d.txt:16"),
        ("one event half a million times", SMALL, "1 root/state:ok" + " root/e1" * 500_000 + "\n", "V1 BadStepLine d.txt:0"),
        ("one use a million times", SMALL, "1 root/state:ok\n2 root/state:ok" + " #1" * 1_000_000 + "\n", "V1 BadStepLine d.txt:16"),
        (f"{len(steps):,} steps of one initial state", SMALL, good(steps), "V3 WrongEnd d.txt"),
        (f"{len(by_all):,} steps of the target", SMALL, good(by_all), f"accepted {len(by_all)}"),
        ("the same, and the last one is wrong", SMALL, good(wrong), f"V2 WrongStep d.txt:{place}"),
        ("the same, and the last one lacks its line feed", SMALL, good(by_all)[:-1], f"V1 BadStepLine d.txt:{place}"),
        ("a step that uses 100,000", SMALL, good([*half, uses]), "accepted 100001"),
        (f"{len(thousand):,} steps with a formula of 1,000 places, all of which count", wide("and", 1_000), good(thousand), f"accepted {len(thousand)}"),
        (f"{len(thousand):,} steps with a formula of 100,000 places, of which one counts", wide("or", 100_000), good(thousand), f"accepted {len(thousand)}"),
    ]
    if worst:
        cases.append((f"{len(thousand):,} steps with a formula of 100,000 places, all of which count", wide("and", 100_000), good(thousand),
                      f"accepted {len(thousand)}"))
    return cases


def row(cells, right, done):
    end = "" if right else f" WRONG: status {done.status} {done.errors[:200]}"
    print("| " + " | ".join([*cells, f"{done.seconds:.2f}", f"{done.megabytes:.0f}"]) + " |" + end, flush=True)
    return right


def main():
    parser = argparse.ArgumentParser(description=__doc__.splitlines()[0])
    parser.add_argument("--tool", required=True, help="the program aadl_fta")
    parser.add_argument("--seconds", type=int, default=60, help="processor seconds that a run may take")
    parser.add_argument("--megabytes", type=int, default=4096, help="memory that a run may take")
    parser.add_argument("--worst", action="store_true", help="with the text that costs most")
    options = parser.parse_args()
    tool = Path(options.tool).resolve()
    right = True
    with tempfile.TemporaryDirectory() as name:
        folder = Path(name)

        def ask(words):
            return run([tool, *words], folder / "output", options.seconds, options.megabytes)

        print("| model | facts | steps | bytes | command | s | MB |\n|---|---|---|---|---|---|---|", flush=True)
        for question in questions():
            model, derivation = folder / "m.aadl", folder / "d.txt"
            model.write_text(question.model)
            text = question.text()
            derivation.write_text(text)
            cells = [question.about, f"{question.facts:,}", f"{len(question.lines):,}", f"{len(text):,}"]
            done = ask(["why", question.root, question.target, model, "--set", question.events])
            right &= row([*cells, "why"], done.status == 0 and done.output.read_text() == text, done)
            done = ask(["confirm", question.root, question.target, derivation, model, "--set", question.events])
            if len(text) > LONGEST:
                answer = done.status == 2 and done.errors == f"aadl_fta: M1 FileTooLong {derivation} over {LONGEST}"
                right &= row([*cells, "confirm: M1"], answer, done)
            else:
                answer = done.status == 0 and done.output.read_text() == f"accepted {len(question.lines)}\n"
                right &= row([*cells, "confirm"], answer, done)

        print("\n| derivation | bytes | answer | s | MB |\n|---|---|---|---|---|", flush=True)
        for about, model, text, answer in hostile(options.worst):
            (folder / "m.aadl").write_text(model)
            (folder / "d.txt").write_text(text)
            done = ask(["confirm", "p::s", "root/state:bad", folder / "d.txt", folder / "m.aadl", "--set", "root/e1+root/e2"])
            if answer.startswith("accepted"):
                fits = done.status == 0 and done.output.read_text() == answer + "\n"
            else:
                fits = done.status == 2 and done.errors == "aadl_fta: " + answer.replace("d.txt", str(folder / "d.txt"))
            right &= row([about, f"{len(text):,}", answer.replace(" d.txt", "")], fits, done)
    sys.exit(0 if right else 1)


if __name__ == "__main__":
    main()
