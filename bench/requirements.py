#!/usr/bin/env python3
"""A hundred requirements over one model: how long `require` takes, beside the one of them that takes longest alone.

    requirements.py --tool PROGRAM [--seconds N] [--megabytes N] [NAME..]    runs it over each shape, and prints a table

The sentences are in turn `order N except SET`, `mixed GROUP` and `without EVENT`, all of one target. `by turns` says how long it takes
where behind each of them another stands, of a second target. What each comes to is known from the listing of the target: a line that differs
says `WRONG`. The longest is sought among six, two of each kind.
"""

import argparse
import sys
import tempfile
from pathlib import Path

sys.dont_write_bytecode = True
import shapes
from paths import words_of
from run import run

COUNT = 100
NAMES = [
    "chain_100_100", "pairs_good_16", "pairs_bad_12", "ladder_16", "scattered_30", "written_out_7_of_14", "counted_12_of_24", "grid_6_6", "random_200_120_8",
]


def sets_of(file):
    """The sets of a listing, in order."""
    return [frozenset(line.split(" ", 1)[1].split("+")) for line in file.read_text().splitlines()[:-1]]


def groups_of(events):
    """Seven groups, each of the events but every seventh one."""
    return {f"g{n}": [event for place, event in enumerate(events) if place % 7 != n] for n in range(7)}


def sentences(sets, events):
    """The sentences: a kind, with what it names."""
    orders = sorted({len(found) for found in sets})
    for n in range(COUNT):
        if n % 3 == 0:
            yield "order", orders[n % len(orders)] + 1, sets[n % min(len(sets), 500)]
        elif n % 3 == 1:
            yield "mixed", f"g{n % 7}", None
        else:
            yield "without", events[n % len(events)], None


def words_for(sentence):
    """A sentence as text."""
    kind, what, tail = sentence
    return f"{kind} {what}" + (f" except {'+'.join(sorted(tail))}" if tail else "")


def verdict(sentence, sets, groups):
    """Whether a sentence is met."""
    kind, what, tail = sentence
    if kind == "order":
        forbidden = any(len(found) < what and found != tail for found in sets)
        return "met" if not forbidden and len(tail) < what else "broken"
    if kind == "mixed":
        inside = set(groups[what])
        return "broken" if any(found <= inside for found in sets) else "met"
    return "broken" if any(what in found for found in sets) else "met"


def main():
    parser = argparse.ArgumentParser(description=__doc__.splitlines()[0])
    parser.add_argument("--tool", required=True, type=Path)
    parser.add_argument("--seconds", type=int, default=60)
    parser.add_argument("--megabytes", type=int, default=4096)
    parser.add_argument("names", nargs="*", metavar="NAME")
    options = parser.parse_args()
    tool = options.tool.resolve()
    print("| shape | sets | `cuts`, s | longest alone, s | all, s | all / longest | by turns, s | MB |\n|---|---|---|---|---|---|---|---|")
    wrong = False
    with tempfile.TemporaryDirectory() as folder:
        folder = Path(folder)
        for shape in shapes.all_shapes():
            if shape.name not in (options.names or NAMES):
                continue
            shapes.write(shape, folder)
            model = folder / f"{shape.name}.aadl"
            root, target = words_of(shape)
            call = lambda *words: run([tool, *words], folder / "out.txt", options.seconds, options.megabytes)
            cuts = call("cuts", root, target, model)
            sets = sets_of(cuts.output)
            events = sorted({event for found in sets for event in found})
            groups = groups_of(events)
            said = list(sentences(sets, events))

            def require(lines):
                """Runs the requirements of these lines, behind the groups."""
                text = "\n".join([*(f"events {name} {' '.join(members)}" for name, members in groups.items() if members), *lines, ""])
                (folder / "r.txt").write_text(text)
                done = call("require", root, folder / "r.txt", model)
                return done, done.output.read_text().splitlines()[:-1]

            lines = [f"R{n} {target} {words_for(sentence)}" for n, sentence in enumerate(said)]
            alone = max(require([line])[0].seconds for line in lines[:6])
            done, told = require(lines)
            right = [line.split(" ")[:2] for line in told] == [[verdict(sentence, sets, groups), f"R{n}"] for n, sentence in enumerate(said)]
            below = shapes.INITIAL if shape.machine else next(gate for gate in shape.gates if gate != shape.target)
            other = f"S {target.replace(shape.target, below, 1)} possible"
            turns, _ = require([line for one in lines for line in (one, other)])
            wrong = wrong or not right
            cells = [shape.name, len(sets), f"{cuts.seconds:.2f}", f"{alone:.2f}", f"{done.seconds:.2f}", f"{done.seconds / max(alone, 0.001):.1f}", f"{turns.seconds:.2f}", f"{done.megabytes:.0f}"]
            print("| " + " | ".join(map(str, cells)) + " |" + ("" if right else f" WRONG {done.errors}"), flush=True)
    sys.exit(1 if wrong else 0)


if __name__ == "__main__":
    main()
