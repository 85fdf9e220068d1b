#!/usr/bin/env python3
"""The numbers of `probability` beside exact rationals, and beside SCRAM's.

    probabilities.py --tool PROGRAM [--scram PROGRAM] [--models N] [--seed N]

Of N models that are drawn (100, where none is given), each a machine whose failed state is a formula of 2 to 10 events with rates of each form, it works out
the probability as a rational, over all sets of events: of `lambda` for some hours with e^-x to 60 digits. The two numbers of the tool must lie on its two sides, also
those of `--events`, and be apart by no more than 8 units of the 17th digit for each event where no rate is a `lambda`. With `--scram`, SCRAM's number for the Open-PSA text of the tree must lie
within its own 6 digits of them. Where that is not so, a line says `WRONG`, and the exit status is 1. The last line is the count, and the widest of all.
"""

import argparse
import random
import re
import subprocess
import sys
import tempfile
import xml.etree.ElementTree as xml
from fractions import Fraction
from itertools import product
from pathlib import Path

DIGITS = 10**60


def exponential(x):
    """e^-x within 1 / DIGITS: by halving to below one, the partial sums there, and squares."""
    halvings = 0
    while x > Fraction(1, 2):
        x, halvings = x / 2, halvings + 1
    total, term, k = Fraction(1), Fraction(1), 0
    while term > Fraction(1, DIGITS**2):
        k += 1
        term = term * x / k
        total += term if k % 2 == 0 else -term
    for _ in range(halvings):
        total = Fraction(round(total * total * DIGITS**2), DIGITS**2)
    return total


def drawn_formula(random_one, events, depth):
    """A formula of these events, as nested tuples."""
    if len(events) == 1 or depth == 0:
        return events[0] if len(events) == 1 else ("or", list(events))
    parts, rest = [], list(events)
    while rest:
        count = random_one.randint(1, len(rest))
        parts.append(drawn_formula(random_one, rest[:count], depth - 1))
        rest = rest[count:]
    if random_one.random() < 0.4:
        parts.append(random_one.choice(events))
    if len(parts) == 1:
        return parts[0]
    kind = random_one.choice(["and", "or", "atleast"])
    return (kind, parts) if kind != "atleast" or len(parts) < 3 else (random_one.randint(2, len(parts) - 1), parts)


def text_of(formula):
    if isinstance(formula, str):
        return formula
    kind, parts = formula
    if isinstance(kind, int):
        return f"{kind} ormore ({', '.join(map(text_of, parts))})"
    word = "and" if kind in ("and", "atleast") else "or"
    return "(" + f" {word} ".join(map(text_of, parts)) + ")"


def is_true(formula, occurred):
    if isinstance(formula, str):
        return formula in occurred
    kind, parts = formula
    held = [is_true(part, occurred) for part in parts]
    if isinstance(kind, int):
        return sum(held) >= kind
    return any(held) if kind == "or" else all(held)


def drawn_rate(random_one):
    """The words of a rate, and the rational that it is in so many hours."""
    form = random_one.randrange(5)
    if form == 0:
        text = f"0.{random_one.randrange(1, 10**6):06}"
    elif form == 1:
        text = f"{random_one.randrange(1, 1000)}.{random_one.randrange(1000):03}e-{random_one.randrange(4, 40)}"
    else:
        text = f"{random_one.randrange(1, 10)}.{random_one.randrange(1000)}e-{random_one.randrange(2, 12)}"
    fixed = form < 3
    return text, fixed


def probability(formula, chances):
    """How probable the formula is, over all sets of events."""
    names = list(chances)
    total = Fraction(0)
    for occurs in product([False, True], repeat=len(names)):
        occurred = {name for name, here in zip(names, occurs) if here}
        if is_true(formula, occurred):
            weight = Fraction(1)
            for name, here in zip(names, occurs):
                weight *= chances[name] if here else 1 - chances[name]
            total += weight
    return total


def model_of(formula, rates):
    properties = " ".join(
        f"EMV2::OccurrenceDistribution => [ProbabilityValue => {text}; Distribution => {'Fixed' if fixed else 'Poisson'};] applies to {name};"
        for name, (text, fixed) in rates.items()
    )
    events = " ".join(f"{name}: error event;" for name in rates)
    return (
        f"package p public annex EMV2 {{** error behavior m events {events} states ok: initial state; bad: state; "
        f"transitions ok -[{text_of(formula)}]-> bad; end behavior; **}}; "
        f"system s annex EMV2 {{** use behavior p::m; properties {properties} **}}; end s; end p;\n"
    )


def run(*words):
    return subprocess.run(words, capture_output=True, text=True)


def scram_number(scram, tool, file, hours):
    text = run(tool, "tree", "p::s", "root/state:bad", file, "--format", "mef").stdout
    with tempfile.NamedTemporaryFile("w", suffix=".xml") as tree:
        tree.write(text)
        tree.flush()
        answer = run(scram, "--bdd", "--probability", "1", "--mission-time", hours, tree.name).stdout
    return float(next(xml.fromstring(answer).iter("sum-of-products")).get("probability"))


def main():
    parser = argparse.ArgumentParser(usage=__doc__)
    parser.add_argument("--tool", required=True)
    parser.add_argument("--scram")
    parser.add_argument("--models", type=int, default=100)
    parser.add_argument("--seed", type=int, default=1)
    options = parser.parse_args()
    wrong, widest, numbers = 0, Fraction(0), 0
    for number in range(options.seed, options.seed + options.models):
        random_one = random.Random(number)
        names = [f"e{k}" for k in range(random_one.randint(2, 10))]
        random_one.shuffle(names)
        formula = drawn_formula(random_one, names, 3)
        hours = random_one.choice(["1", "10", "1e3", "0.5", "1000.25"])
        rates = {name: drawn_rate(random_one) for name in sorted(names)}
        chances = {
            name: Fraction(text) if fixed else 1 - exponential(Fraction(text) * Fraction(hours)) for name, (text, fixed) in rates.items()
        }
        with tempfile.TemporaryDirectory() as folder:
            file = str(Path(folder) / "m.aadl")
            Path(file).write_text(model_of(formula, rates))
            said = run(options.tool, "probability", "p::s", "root/state:bad", file, "--hours", hours, "--events")
            pairs = re.search(r"^at-least (\S+)\nat-most (\S+)$", said.stdout, re.M)
            if said.returncode != 0 or not pairs:
                print(f"WRONG {number}: {said.stderr.strip()} {said.stdout.strip()}")
                wrong += 1
                continue
            told = [("all", *pairs.groups(), chances)]
            for name, *four in re.findall(r"^event root/(\S+) never (\S+) (\S+) always (\S+) (\S+)$", said.stdout, re.M):
                told.append((name + " never", *four[:2], chances | {name: Fraction(0)}))
                told.append((name + " always", *four[2:], chances | {name: Fraction(1)}))
            for what, low, high, its in told:
                exact, low, high = probability(formula, its), Fraction(low), Fraction(high)
                slack = Fraction(1, 10**58)
                numbers += 1
                if not low - slack <= exact <= high + slack:
                    print(f"WRONG {number} {what}: {float(low)} {float(exact)} {float(high)}")
                    wrong += 1
                elif high > 0:
                    width = (high - low) / high * 10**17 / len(names)
                    widest = max(widest, width)
                    if width > 8 and all(fixed for _, fixed in rates.values()):
                        print(f"WRONG {number} {what}: {float(width)} units of the 17th digit for each event")
                        wrong += 1
            if options.scram:
                its = scram_number(options.scram, options.tool, file, str(float(Fraction(hours))))
                exact = float(probability(formula, chances))
                if abs(its - exact) > 1e-5 * exact:
                    print(f"WRONG {number}: scram {its}, exact {exact}")
                    wrong += 1
    print(f"{options.models} models, {numbers} pairs of bounds, {wrong} wrong; at most {float(widest):.2f} units of the 17th digit apart for each event")
    return 1 if wrong else 0


if __name__ == "__main__":
    sys.exit(main())
