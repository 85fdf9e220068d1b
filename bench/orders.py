"""Runs `aadl_fta targets` over models of sizes n, 2n and 4n and prints a table: what was written, what it took, and how that grows.

    python3 orders.py --tool PROGRAM [--size N] [NAME..]

The shapes are those of which a search for each fact takes longest: facts that take ever more events, many facts behind few events, and
facts behind one another. How many events each fact takes is known: a wrong line says `WRONG`, and then the exit status is 1. Seconds are
those of the processor, and megabytes the most that the program had at once. The last column is the exponent by which the seconds grow
from the row before: 1 is linear, and 2 is the square.
"""

import argparse
import math
import os
import subprocess
import sys
import tempfile
from collections import Counter
from pathlib import Path


def machine(events, states, transitions):
    """The package `p` with a machine, and the system `s` that uses it. The initial state is `ok`."""
    return "\n".join([
        "package p", "public", "annex EMV2 {**", "error behavior m", "events", *(f"{event}: error event;" for event in events),
        "states", "ok: initial state;", *(f"{state}: state;" for state in states),
        "transitions", *transitions, "end behavior;", "**};", "system s", "annex EMV2 {** use behavior p::m; **};", "end s;", "end p;", "",
    ])


def network(types, devices, parts, links):
    """The package `p` with classifiers of devices, and the system `s.i` that connects them."""
    return "\n".join([
        "package p", "public", f"annex EMV2 {{** error types {' '.join(f'{name}: type;' for name in types)} end types; **}};", *devices,
        "system s end s;", "system implementation s.i", "subcomponents", *parts,
        "connections", *(f"c{n}: port {one} -> {other};" for n, (one, other) in enumerate(links)), "end s.i;", "end p;", "",
    ])


def device(name, inputs, outputs, types, inside):
    """A device with ports at each of which all types come."""
    ports = " ".join([*(f"{port}: in event port;" for port in inputs), *(f"{port}: out event port;" for port in outputs)])
    among = ", ".join(types)
    sides = " ".join([*(f"{port}: in propagation {{{among}}};" for port in inputs), *(f"{port}: out propagation {{{among}}};" for port in outputs)])
    flows, component = inside
    clauses = f" component error behavior propagations {component} end component;" if component else ""
    return f"device {name} features {ports} annex EMV2 {{** use types p; error propagations {sides}{' flows ' + flows if flows else ''} end propagations;{clauses} **}}; end {name};"


SOURCE = device("source", [], ["o"], ["t"], ("e: error source o{t};", ""))
BOTH = device("both", ["a", "b"], ["o"], ["t"], ("", "all -[a{t} and b{t}]-> o{t};"))


def counts(n):
    """The state k takes k events."""
    states = [f"s{k}" for k in range(1, n + 1)]
    steps = [f"{before} -[e{k}]-> s{k};" for k, before in enumerate(["ok", *states[:-1]], 1)]
    return "p::s", [], machine([f"e{k}" for k in range(1, n + 1)], states, steps), Counter({str(k): 1 for k in range(1, n + 1)})


def states(n):
    """Each state takes the same two events."""
    names = [f"s{k}" for k in range(16 * n)]
    return "p::s", [], machine(["a", "b"], names, [f"ok -[a and b]-> {name};" for name in names]), Counter({"2": 16 * n})


def nothing(n):
    """128 types on their way through devices, and no event."""
    types = [f"t{k}" for k in range(128)]
    passed = "".join(f"f{k}: error path i{{{name}}} -> o{{{name}}};" for k, name in enumerate(types))
    chain = device("link", ["i"], ["o"], types, (passed, ""))
    links = [(f"d{k}.o", f"d{k + 1}.i") for k in range(n - 1)]
    first = device("first", [], ["o"], types, ("", ""))
    text = network(types, [first, chain], ["first: device first;", *(f"d{k}: device link;" for k in range(n))], [("first.o", "d0.i"), *links])
    return "p::s.i", ["--all"], text, {"never"}


def types(n):
    """128 types on their way through devices, each with an event at the first one."""
    names = [f"t{k}" for k in range(128)]
    passed = "".join(f"f{k}: error path i{{{name}}} -> o{{{name}}};" for k, name in enumerate(names))
    begun = "".join(f"e{k}: error source o{{{name}}};" for k, name in enumerate(names))
    chain = device("link", ["i"], ["o"], names, (passed, ""))
    links = [(f"d{k}.o", f"d{k + 1}.i") for k in range(n - 1)]
    text = network(names, [device("first", [], ["o"], names, (begun, "")), chain], ["first: device first;", *(f"d{k}: device link;" for k in range(n))], [("first.o", "d0.i"), *links])
    return "p::s.i", ["--all"], text, {"1"}


def behind(n):
    """A chain of devices behind a pair of sources."""
    chain = device("link", ["i"], ["o"], ["t"], ("f: error path i{t} -> o{t};", ""))
    parts = ["x: device source;", "y: device source;", "pair: device both;", *(f"d{k}: device link;" for k in range(4 * n))]
    links = [("x.o", "pair.a"), ("y.o", "pair.b"), *zip(["pair.o", *(f"d{k}.o" for k in range(4 * n - 1))], (f"d{k}.i" for k in range(4 * n)))]
    return "p::s.i", ["--all"], network(["t"], [SOURCE, BOTH, chain], parts, links), {"1", "2"}


def pairs(n):
    """Pairs of sources, each with 31 types out."""
    types = [f"t{k}" for k in range(31)]
    sides = "a: in propagation {t0}; b: in propagation {t0}; o: out propagation {" + ", ".join(types) + "};"
    many = (
        f"device many features a: in event port; b: in event port; o: out event port; annex EMV2 {{** use types p; error propagations {sides} end propagations;"
        f" component error behavior propagations {' '.join(f'all -[a{{t0}} and b{{t0}}]-> o{{{name}}};' for name in types)} end component; **}}; end many;"
    )
    source = device("source", [], ["o"], ["t0"], ("e: error source o{t0};", ""))
    parts = [f"{name}{k}: device {kind};" for k in range(n) for name, kind in (("x", "source"), ("y", "source"), ("p", "many"))]
    links = [link for k in range(n) for link in ((f"x{k}.o", f"p{k}.a"), (f"y{k}.o", f"p{k}.b"))]
    return "p::s.i", ["--all"], network(types, [source, many], parts, links), {"1", "2"}


def crossed(n):
    """Stages of two devices, each of which takes both of the stage before."""
    parts = ["x0: device source;", "y0: device source;", *(f"{name}{k}: device both;" for k in range(1, n + 1) for name in "xy")]
    links = [(f"{one}{k - 1}.o", f"{other}{k}.{port}") for k in range(1, n + 1) for other in "xy" for one, port in (("x", "a"), ("y", "b"))]
    return "p::s.i", ["--all"], network(["t"], [SOURCE, BOTH], parts, links), {"1", "2"}


def ring(n):
    """A ring of devices, each of which hands on what comes, and what its own two sources give together."""
    hub = device("hub", ["i", "a", "b"], ["o"], ["t"], ("f: error path i{t} -> o{t};", "all -[a{t} and b{t}]-> o{t};"))
    parts = [f"{name}{k}: device {kind};" for k in range(n) for name, kind in (("x", "source"), ("y", "source"), ("h", "hub"))]
    links = [link for k in range(n) for link in ((f"x{k}.o", f"h{k}.a"), (f"y{k}.o", f"h{k}.b"), (f"h{k}.o", f"h{(k + 1) % n}.i"))]
    return "p::s.i", ["--all"], network(["t"], [SOURCE, hub], parts, links), {"1", "2"}


SHAPES = {shape.__name__: shape for shape in [counts, states, nothing, types, behind, pairs, crossed, ring]}


def is_right(printed, wanted):
    """Whether the lines say what is wanted: how many facts take how many events, or at least which numbers there are."""
    *lines, end = printed.decode().splitlines() or [""]
    found = Counter(line.rsplit(" ", 1)[-1] for line in lines)
    return end == "end" and (found == wanted if isinstance(wanted, Counter) else set(found) == wanted)


def run(command):
    """What a command writes, with the line of the error stream, and what it took."""
    with tempfile.TemporaryFile() as out, tempfile.TemporaryFile() as err:
        child = subprocess.Popen(command, stdout=out, stderr=err)
        _, status, used = os.wait4(child.pid, 0)
        child.returncode = os.waitstatus_to_exitcode(status)
        out.seek(0)
        err.seek(0)
        return out.read(), err.read().decode().strip(), used.ru_utime + used.ru_stime, used.ru_maxrss / 1024


def main():
    parser = argparse.ArgumentParser(description=__doc__.splitlines()[0])
    parser.add_argument("--tool", required=True, type=Path)
    parser.add_argument("--size", type=int, default=128, help="the smallest size, at most 250")
    parser.add_argument("names", nargs="*", metavar="NAME", help=", ".join(SHAPES))
    options = parser.parse_args()
    tool = options.tool.resolve()
    print("| shape | size | bytes of text | lines | s | MB | exponent |\n|---|---|---|---|---|---|---|")
    wrong = False
    with tempfile.TemporaryDirectory() as folder:
        for name in options.names or SHAPES:
            before = None
            for size in [options.size * k for k in (1, 2, 4)]:
                root, flags, text, wanted = SHAPES[name](size)
                file = Path(folder) / f"{name}.aadl"
                file.write_text(text)
                printed, line, seconds, megabytes = run([tool, "targets", root, file, *flags])
                right = is_right(printed, wanted)
                wrong = wrong or not right
                end = "" if right else f" WRONG: {len(printed)} bytes, {line}"
                grown = "" if not before else f"{math.log2(max(seconds, 0.001) / max(before, 0.001)):.2f}"
                before = seconds
                cells = [name, size, len(text), printed.count(b"\n"), f"{seconds:.2f}", f"{megabytes:.0f}", grown]
                print("| " + " | ".join(map(str, cells)) + " |" + end, flush=True)
    sys.exit(1 if wrong else 0)


if __name__ == "__main__":
    main()
