#!/usr/bin/env python3
"""Shapes of fault models of any size, as AADL text and as Open-PSA fault trees.

    shapes.py                  lists the shapes
    shapes.py FOLDER [NAME..]  writes NAME.aadl and NAME.xml of these shapes, or of all

A shape is a machine of one component, or a network of gates.

A machine has events, states, and transitions from a state to a state on a condition. `ok` is its initial state. Every
other state is a gate: it holds where a transition leads to it whose source holds and whose condition is true. In a
network each event is a device with an error source, and each gate a device with an input for each event and gate of its
formula, and an output that comes where the formula is true. The Open-PSA tree has a gate for each one on which the target
depends, and says the same; how many minimal cut sets there are is known from the shape and never taken from a program.
"""

import random
import sys
from dataclasses import dataclass
from math import comb
from pathlib import Path

INITIAL = "ok"


# Conditions and gates are the name of an event, ("state", NAME), or one of these with parts.
def both(*parts):
    return ("and", list(parts))


def either(*parts):
    return ("or", list(parts))


def at_least(least, parts):
    return ("atleast", least, list(parts))


@dataclass
class Machine:
    """A machine of one component."""

    events: list
    states: list
    transitions: list  # (source, condition, target)


@dataclass
class Shape:
    """A shape: its name, what it is, its target, and what must come out."""

    name: str
    about: str
    target: str
    sets: int | None  # how many minimal cut sets it has, where that is known
    machine: Machine | None = None  # else it is a network of its gates
    gates: dict | None = None  # the tree, where it is not that of the machine
    refusal: str | None = None  # the code of the refusal that must come in place of sets
    options: tuple = ()  # further words of the call
    order: int | None = None  # the greatest order, where one is given

    def tree(self):
        """The gates of the tree by name; that of the target is the top."""
        return self.gates if self.gates is not None else gates_of(self.machine)

    def counts(self):
        """How many gates and how many events there are."""
        if self.machine is not None:
            return len(self.machine.states) - 1, len(self.machine.events)
        return len(self.gates), len(events_of(self.gates))

    def words(self):
        """The words of the call of aadl_fta, but for the file."""
        if self.machine is not None:
            return ["cuts", "p::s", f"root/state:{self.target}"]
        return ["cuts", "p::s.i", f"root.{self.target}/out:o{{p::t}}"]


def gates_of(machine):
    """A gate for each state but the initial one. It is right for a machine without a loop of states."""
    ways = {state: [] for state in machine.states if state != INITIAL}
    for source, condition, target in machine.transitions:
        way = condition if source == INITIAL else both(("state", source), condition)
        ways[target].append(way)
    return {state: parts[0] if len(parts) == 1 else either(*parts) for state, parts in ways.items()}


def names(letter, count):
    return [f"{letter}{number}" for number in range(count)]


def from_ok(conditions):
    """Transitions from the initial state to states of their own."""
    return [(INITIAL, condition, state) for state, condition in conditions]


# ---- shapes of one machine


def chain(count, kinds):
    """States one after the other; their events are taken in turn."""
    events, states = names("e", kinds), [INITIAL] + names("s", count)
    steps = [(states[i], events[i % kinds], states[i + 1]) for i in range(count)]
    used = min(count, kinds)
    return Shape(f"chain_{count}_{kinds}", f"a chain of {count} states over {kinds} events: one set of {used}",
                 states[-1], 1, Machine(events, states, steps))


def pairs(count, good):
    """All of some pairs, of each of which one event is enough."""
    a, b = names("a", count), names("b", count)
    events = [event for pair in zip(a, b) for event in pair] if good else a + b
    condition = both(*(either(x, y) for x, y in zip(a, b)))
    order = "good" if good else "bad"
    where = "each pair side by side" if good else "all first ones before all second ones"
    return Shape(f"pairs_{order}_{count}", f"{count} pairs joined by and, {where}", "bad", 2**count,
                 Machine(events, [INITIAL, "bad"], from_ok([("bad", condition)])))


def ladder(count):
    """A chain in which each step has two events, either of which is enough."""
    a, b = names("a", count), names("b", count)
    events = [event for pair in zip(a, b) for event in pair]
    states = [INITIAL] + names("s", count)
    steps = [(states[i], either(a[i], b[i]), states[i + 1]) for i in range(count)]
    return Shape(f"ladder_{count}", f"a chain of {count} states with two events a step", states[-1], 2**count,
                 Machine(events, states, steps))


def scattered(count):
    """One set of all events, named in an order that is far from that of their numbers."""
    events = names("e", count)
    step = next(step for step in range(count // 2 + 1, count) if all(count % d or step % d for d in range(2, count)))
    condition = both(*(events[i * step % count] for i in range(count)))
    return Shape(f"scattered_{count}", f"one set of {count} events, named out of order", "bad", 1,
                 Machine(events, [INITIAL, "bad"], from_ok([("bad", condition)])))


def ring(count, shared):
    """States in a ring, each entered by its own event; going on takes an event of its own, or one for all.

    A set that goes past the target needs no more than the part before it, so the tree is cut open there.
    """
    entering, going = names("e", count), ["go"] if shared else names("g", count)
    states = [INITIAL] + names("s", count)
    ring_states = states[1:]
    steps = from_ok(zip(ring_states, entering))
    for i, state in enumerate(ring_states):
        steps.append((state, going[i % len(going)], ring_states[(i + 1) % count]))
    gates = {ring_states[1]: entering[1]}
    for i in list(range(2, count)) + [0]:
        way = both(("state", ring_states[(i - 1) % count]), going[(i - 1) % len(going)])
        gates[ring_states[i]] = either(entering[i], way)
    kind = "shared" if shared else "own"
    about = f"a ring of {count} states with feedback, " + ("one event to go on" if shared else "an event for each step")
    return Shape(f"ring_{kind}_{count}", about, ring_states[0], count, Machine(entering + going, states, steps), gates)


def any_of(count, refusal=None):
    """Any of some events."""
    events = names("e", count)
    about = f"any of {count} events" + (f": refused by {refusal}" if refusal else "")
    return Shape(f"any_{count}", about, "bad", count,
                 Machine(events, [INITIAL, "bad"], from_ok([("bad", either(*events))])), refusal=refusal)


def star(count):
    """States around one, each with an event of its own and one on its way to the middle."""
    own, way, states = names("e", count), names("w", count), names("s", count)
    steps = from_ok(zip(states, own)) + [(state, way[i], "middle") for i, state in enumerate(states)]
    return Shape(f"star_{count}", f"{count} states that lead to one", "middle", count,
                 Machine(own + way, [INITIAL, *states, "middle"], steps))


def chains(count, length):
    """Some chains that lead to one state."""
    events, states, steps = [], [INITIAL], []
    for c in range(count):
        own, way = names(f"e{c}x", length), names(f"s{c}x", length - 1)
        path = [INITIAL, *way, "bad"]
        events += own
        states += way
        steps += [(path[i], own[i], path[i + 1]) for i in range(length)]
    return Shape(f"chains_{count}_{length}", f"{count} chains of {length} events each, to one state", "bad", count,
                 Machine(events, [*states, "bad"], steps))


def written_out(least, count):
    """At least so many of some events, as all their choices."""
    events = names("e", count)

    def choices(first, left):
        if left == 0:
            yield []
            return
        for i in range(first, count - left + 1):
            for rest in choices(i + 1, left - 1):
                yield [events[i], *rest]

    condition = either(*(both(*choice) for choice in choices(0, least)))
    return Shape(f"written_out_{least}_of_{count}", f"{least} of {count} events, each choice written out", "bad",
                 comb(count, least), Machine(events, [INITIAL, "bad"], from_ok([("bad", condition)])))


# ---- networks of gates


def counted(least, count):
    """At least so many of some events, counted."""
    gates = {"top": at_least(least, names("e", count))}
    return Shape(f"counted_{least}_of_{count}", f"{least} of {count} events, counted", "top", comb(count, least), gates=gates)


def grid(rows, columns):
    """Ways through a grid, down or right, of which each step fails by an event; all ways must fail.

    A place is lost where its own event is there, or where the places before it are lost. The minimal sets are the cuts
    between the first place and the last.
    """
    gates = {}
    for r in range(rows):
        for c in range(columns):
            before = [("state", f"p{y}x{x}") for y, x in ((r - 1, c), (r, c - 1)) if y >= 0 and x >= 0]
            own = f"e{r}x{c}"
            lost = both(*before) if len(before) == 2 else before[0] if before else None
            gates[f"p{r}x{c}"] = own if lost is None else either(own, lost)
    return Shape(f"grid_{rows}_{columns}", f"a grid of {rows} rows and {columns} columns", f"p{rows - 1}x{columns - 1}",
                 None, gates=gates)


def short(shape, order):
    """A shape with a greatest order."""
    shape.name += f"_order_{order}"
    shape.about += f", sets of at most {order}"
    shape.sets = None
    shape.options, shape.order = ("--max-order", str(order)), order
    return shape


def first_line(shape):
    """A shape of which only the first set is asked for."""
    shape.name += "_first"
    shape.about += ", the first set"
    shape.sets = 1
    shape.options = ("--limit", "1")
    return shape


def random_gates(count, events, seed):
    """Gates over the gates just before and events, drawn at random from a seed."""
    draw = random.Random(seed)
    gates, known = {}, names("e", events)
    for g in range(count):
        parts = draw.sample(known[events:][-8:], min(g, 2)) + draw.sample(known[:events], draw.randint(1, 3))
        gates[f"g{g}"] = (both if draw.random() < 0.4 else either)(*parts)
        known.append(("state", f"g{g}"))
    return Shape(f"random_{count}_{events}_{seed}", f"{count} gates at random over {events} events", f"g{count - 1}", None,
                 gates=gates)


def spread(count, events, seed):
    """Gates over any gates before and events, drawn at random from a seed: much is shared, far apart."""
    draw = random.Random(seed)
    gates, known = {}, names("e", events)
    for g in range(count):
        parts = draw.sample(known[-max(events // 2, 8):], draw.randint(2, 3))
        kind = draw.random()
        gates[f"g{g}"] = at_least(2, parts) if kind < 0.1 and len(parts) > 2 else (both if kind < 0.5 else either)(*parts)
        known.append(("state", f"g{g}"))
    return Shape(f"spread_{count}_{events}_{seed}", f"{count} gates at random over {events} events, far apart", f"g{count - 1}",
                 None, gates=gates)


def hub(count, events, seed):
    """Choices of three to six events that meet three by three, and all of these in one, at random from a seed."""
    draw = random.Random(seed)
    known, gates = names("e", events), {}
    for g in range(count):
        gates[f"g{g}"] = either(*draw.sample(known, draw.randint(3, 6)))
    middle = names("m", count // 3)
    for name in middle:
        gates[name] = both(*(("state", f"g{g}") for g in draw.sample(range(count), 3)))
    gates["top"] = either(*(("state", name) for name in middle))
    return Shape(f"hub_{count}_{events}_{seed}", f"{count} choices over {events} events that meet in one", "top", None, gates=gates)


def bomb(count):
    """All of some pairs and all of their events: one set, and before it all choices where the order is a bad one."""
    a, b = names("a", count), names("b", count)
    gates = {
        "whole": both(*a, *b),
        "choices": both(*(either(x, y) for x, y in zip(a, b))),
        "top": both(("state", "choices"), ("state", "whole")),
    }
    return Shape(f"bomb_{2 * count}", f"{count} pairs, and all of their events, badly numbered", "top", 1, gates=gates)


def drawn(seed):
    """A random network, of a kind and size that the seed gives."""
    draw = random.Random(seed)
    events = draw.randint(20, 120)
    kind = draw.randrange(4)
    if kind == 0:
        return random_gates(draw.randint(events, 2 * events), events, seed)
    if kind == 1:
        return spread(draw.randint(events // 2, events), events, seed)
    if kind == 2:
        return short(hub(draw.randint(events, 3 * events), events, seed), draw.randint(3, 5))
    return grid(draw.randint(3, 7), draw.randint(3, 8))


def all_shapes():
    """The shapes of one machine, and then the networks."""
    return [
        chain(100, 100), chain(1000, 1000), chain(16383, 8),
        pairs(16, True), pairs(12, False), pairs(16, False), ladder(16),
        scattered(30), ring(100, False), ring(500, False), ring(1000, True),
        any_of(1024), any_of(1025, "M11"), star(500), chains(20, 50),
        written_out(5, 10), written_out(7, 14),
        counted(3, 60), counted(12, 24), counted(36, 40), first_line(counted(100, 300)),
        grid(6, 6), grid(10, 6), first_line(grid(8, 8)), short(grid(20, 50), 4),
        short(hub(300, 200, 3), 3), bomb(30),
        random_gates(100, 60, 2), random_gates(200, 120, 8), random_gates(300, 150, 9), spread(36, 50, 3),
    ]


# ---- texts


def condition_text(condition, inside=False):
    """A condition as AADL text."""
    if isinstance(condition, str):
        return condition
    text = f" {condition[0]} ".join(condition_text(part, True) for part in condition[1])
    return f"({text})" if inside and len(condition[1]) > 1 else text


def aadl_text(machine):
    """The package `p` with the machine and the system `s` that uses it."""
    states = [f"{state}: {'initial ' if state == INITIAL else ''}state;" for state in machine.states]
    steps = [f"{source} -[{condition_text(condition)}]-> {target};" for source, condition, target in machine.transitions]
    lines = ["package p", "public", "annex EMV2 {**", "error behavior m", "events"]
    lines += [f"{event}: error event;" for event in machine.events]
    lines += ["states", *states, "transitions", *steps, "end behavior;", "**};"]
    lines += ["system s", "annex EMV2 {** use behavior p::m; **};", "end s;", "end p;", ""]
    return "\n".join(lines)


def leaves(formula):
    """The events and gates that occur in a formula, each once, in their order."""
    if isinstance(formula, str) or formula[0] == "state":
        return [formula]
    found = []
    for part in formula[-1]:
        found += [leaf for leaf in leaves(part) if leaf not in found]
    return found


def events_of(gates):
    """The events of some gates, in the order in which they first occur."""
    return list(dict.fromkeys(leaf for formula in gates.values() for leaf in leaves(formula) if isinstance(leaf, str)))


def input_text(formula, inputs, inside=False):
    """A formula over the inputs of a gate, as AADL text."""
    if isinstance(formula, str) or formula[0] == "state":
        return inputs[formula]
    if formula[0] == "atleast":
        return f"{formula[1]} ormore ({', '.join(input_text(part, inputs) for part in formula[2])})"
    text = f" {formula[0]} ".join(input_text(part, inputs, True) for part in formula[1])
    return f"({text})" if inside and len(formula[1]) > 1 else text


def network_text(gates, events):
    """The package `p` with a device for each event and gate, and the system `s.i` that connects them."""
    lines = ["package p", "public", "annex EMV2 {** error types t: type; end types; **};"]
    lines += ["device basic features o: out event port; annex EMV2 {** use types p;",
              "error propagations o: out propagation {t}; flows e: error source o{t}; end propagations; **}; end basic;"]
    parts, links = [f"{event}: device basic;" for event in events], []
    for name, formula in gates.items():
        found = leaves(formula)
        inputs = {leaf: f"i{n}" for n, leaf in enumerate(found)}
        ports = " ".join(f"{port}: in event port;" for port in inputs.values())
        sides = " ".join(f"{port}: in propagation {{t}};" for port in inputs.values())
        lines += [f"device gate_{name} features o: out event port; {ports} annex EMV2 {{** use types p;",
                  f"error propagations o: out propagation {{t}}; {sides} end propagations;",
                  f"component error behavior propagations all -[{input_text(formula, inputs)}]-> o{{t}}; end component; **}}; end gate_{name};"]
        parts.append(f"{name}: device gate_{name};")
        for leaf, port in inputs.items():
            links.append(f"c{len(links)}: port {leaf if isinstance(leaf, str) else leaf[1]}.o -> {name}.{port};")
    lines += ["system s end s;", "system implementation s.i", "subcomponents", *parts, "connections", *links, "end s.i;", "end p;", ""]
    return "\n".join(lines)


def collect(formula, gates, events):
    """Adds the gates and the events that occur in a formula."""
    if isinstance(formula, str):
        events.add(formula)
    elif formula[0] == "state":
        gates.add(formula[1])
    else:
        for part in formula[-1]:
            collect(part, gates, events)


def formula_text(formula):
    """A formula as Open-PSA text."""
    if isinstance(formula, str):
        return f'<basic-event name="{formula}"/>'
    if formula[0] == "state":
        return f'<gate name="{formula[1]}"/>'
    if len(formula[-1]) == 1:
        return formula_text(formula[-1][0])
    parts = "".join(formula_text(part) for part in formula[-1])
    if formula[0] == "atleast":
        return f'<atleast min="{formula[1]}">{parts}</atleast>'
    return f"<{formula[0]}>{parts}</{formula[0]}>"


def open_psa_text(gates, top):
    """The tree of a gate: it, and the gates and the events on which it depends."""
    found, events, waiting = set(), set(), [top]
    while waiting:
        name = waiting.pop()
        if name not in found:
            found.add(name)
            below = set()
            collect(gates[name], below, events)
            waiting += sorted(below)
    lines = ['<?xml version="1.0"?>', "<opsa-mef>", '<define-fault-tree name="tree">']
    for name in [top] + sorted(found - {top}):
        lines.append(f'<define-gate name="{name}">{formula_text(gates[name])}</define-gate>')
    lines += ["</define-fault-tree>", "<model-data>"]
    lines += [f'<define-basic-event name="{event}"><float value="0.001"/></define-basic-event>' for event in sorted(events)]
    return "\n".join([*lines, "</model-data>", "</opsa-mef>", ""])


def write(shape, folder):
    """Writes a shape as NAME.xml and as NAME.aadl."""
    (folder / f"{shape.name}.xml").write_text(open_psa_text(shape.tree(), shape.target))
    text = network_text(shape.gates, events_of(shape.gates)) if shape.machine is None else aadl_text(shape.machine)
    (folder / f"{shape.name}.aadl").write_text(text)


def main(words):
    if not words:
        for shape in all_shapes():
            print(f"{shape.name:32} {shape.about}")
        return
    folder = Path(words[0])
    folder.mkdir(parents=True, exist_ok=True)
    for shape in all_shapes():
        if not words[1:] or shape.name in words[1:]:
            write(shape, folder)


if __name__ == "__main__":
    main(sys.argv[1:])
