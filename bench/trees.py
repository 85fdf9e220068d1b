#!/usr/bin/env python3
"""Fault trees of the greatest slices and of long rings: how long `tree` takes for each.

    trees.py --tool PROGRAM [--seconds N] [--megabytes N]    runs `aadl_fta tree` over each, and prints a table

The text of each tree is known from the shape, so each run is also a test: where another byte was printed, the table says
`WRONG`. A gate is named by its state, its stage and the place of its formula at which it stands.
"""

import argparse
import sys
import tempfile
from dataclasses import dataclass
from pathlib import Path

sys.dont_write_bytecode = True
import shapes
from run import run


@dataclass
class Tree:
    """A machine with the tree of one of its states."""

    name: str
    about: str
    machine: shapes.Machine
    target: str
    gates: list  # of each the state, the stage and the place, the word of its kind, and its inputs: events, and gates by name
    top: str
    events: list  # the events that are named, in order
    facts: int  # how many the target depends on, itself included

    def text(self):
        lines = [f'toplevel "{self.top}";']
        for state, stage, place, kind, inputs in self.gates:
            lines.append(f'"{gate(state, stage, place)}" {kind} ' + " ".join(f'"{name}"' for name in inputs) + ";")
        lines += [f'"{event(name)}" prob=1;' for name in self.events]
        return "".join(f"{line}\n" for line in lines)


def event(name):
    return f"root/{name}"


def gate(state, stage, place):
    return f"root/state:{state}@{stage}.{place}"


def chain(count, kinds):
    """States one after the other, whose steps take events in turn: each but the first is the one before and an event."""
    events, states = shapes.names("e", kinds), [shapes.INITIAL] + shapes.names("s", count)
    steps = [(states[i], events[i % kinds], states[i + 1]) for i in range(count)]
    gates, before = [], event(events[0])
    for i in range(1, count):
        gates.append((states[i + 1], 1, 1, "and", [before, event(events[i % kinds])]))
        before = gate(states[i + 1], 1, 1)
    return Tree(f"chain_{count}_{kinds}", f"a chain of {count:,} states over {kinds:,} events", shapes.Machine(events, states, steps),
                states[-1], gates, before, events[:count], count + 1)


def ladder(count, kinds):
    """A chain in which each step has two events, either of which is enough."""
    events, states = shapes.names("e", kinds), [shapes.INITIAL] + shapes.names("s", count)
    steps, gates, before = [], [], None
    for i in range(count):
        one, other = events[i % kinds], events[(i + 1) % kinds]
        steps.append((states[i], shapes.either(one, other), states[i + 1]))
        both = (states[i + 1], 1, 3, "or", [event(one), event(other)])
        if before is None:
            gates.append(both)
            before = gate(states[i + 1], 1, 3)
        else:
            gates += [(states[i + 1], 1, 1, "and", [before, gate(states[i + 1], 1, 3)]), both]
            before = gate(states[i + 1], 1, 1)
    return Tree(f"ladder_{count}_{kinds}", f"a chain of {count:,} states, of two of {kinds:,} events a step",
                shapes.Machine(events, states, steps), states[-1], gates, before, events[:count + 1], count + 1)


def ring(count):
    """A ring that is entered at one state, and gone round by one event: in each stage a state is that event, or never holds."""
    states = [f"s{n}" for n in range(1, count + 1)]
    steps = [(shapes.INITIAL, "e", states[0])] + [(states[i], "e", states[(i + 1) % count]) for i in range(count)]
    last = states[-1]
    return Tree(f"ring_{count}", f"a ring of {count:,} states, entered at one of them, one event",
                shapes.Machine(["e"], [shapes.INITIAL] + states, steps), last, [(last, count, 0, "or", [event("e")])],
                gate(last, count, 0), ["e"], count + 1)


def ring_own(count):
    """A ring in which each state has an event of its own, and one event leads on: in the first stage each is its own event, and in
    each later one also the state before it in the stage before."""
    states, own = [f"s{n}" for n in range(1, count + 1)], [f"e{n}" for n in range(1, count + 1)]
    steps = shapes.from_ok(zip(states, own)) + [(states[i], "go", states[(i + 1) % count]) for i in range(count)]
    gates = []
    for i in range(1, count):
        before = event(own[0]) if i == 1 else gate(states[i - 1], i, 0)
        gates.append((states[i], i + 1, 0, "or", [event(own[i]), gate(states[i], i + 1, 4)]))
        gates.append((states[i], i + 1, 4, "and", [before, event("go")]))
    return Tree(f"ring_own_{count}", f"a ring of {count:,} states, each entered by its own event, and one event to go on",
                shapes.Machine(own + ["go"], [shapes.INITIAL] + states, steps), states[-1], gates, gate(states[-1], count, 0),
                own + ["go"], count + 1)


def trees():
    return [chain(16383, 1024), ladder(16383, 1024), ring(1413), ring_own(1000)]


def main():
    parser = argparse.ArgumentParser(description=__doc__.splitlines()[0])
    parser.add_argument("--tool", required=True, help="the program aadl_fta")
    parser.add_argument("--seconds", type=int, default=60, help="processor seconds that a run may take")
    parser.add_argument("--megabytes", type=int, default=4096, help="memory that a run may take")
    options = parser.parse_args()
    tool = Path(options.tool).resolve()

    print("| tree | facts | gates | bytes | s | MB |\n|---|---|---|---|---|---|", flush=True)
    wrong = False
    with tempfile.TemporaryDirectory() as name:
        folder = Path(name)
        for tree in trees():
            file = folder / f"{tree.name}.aadl"
            file.write_text(shapes.aadl_text(tree.machine))
            words = [tool, "tree", "p::s", f"root/state:{tree.target}", file]
            done = run(words, folder / "tree", options.seconds, options.megabytes)
            text = tree.text()
            right = done.status == 0 and done.output.read_text() == text
            wrong = wrong or not right
            end = "" if right else f" WRONG: status {done.status} {done.errors}"
            cells = [tree.about, f"{tree.facts:,}", f"{len(tree.gates):,}", f"{len(text):,}", f"{done.seconds:.2f}", f"{done.megabytes:.0f}"]
            print("| " + " | ".join(cells) + " |" + end, flush=True)
    sys.exit(1 if wrong else 0)


if __name__ == "__main__":
    main()
