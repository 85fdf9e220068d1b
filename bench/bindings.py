#!/usr/bin/env python3
"""Runs `aadl_fta check` and `cuts` over large models with bindings, by both profiles, and prints a table of seconds.

    python3 bindings.py --tool PROGRAM [--times N]

Each model is made in two forms: without bindings, and with them. The first column is the form without by the first profile, the next ones are that with bindings by
the first and by the second, and the last are the second over the form without, and over the first with the same text: both are to be near 1. Seconds are those of the processor, the least of N runs.
The exit status is 1 where a listing by the second profile has not the event that only a binding brings there.
"""

import argparse
import os
import resource
import subprocess
import sys
import tempfile
from pathlib import Path

HEAD = """package p public
annex EMV2 {** error types lost: type; end types;
error behavior m events fail: error event; states ok: initial state; failed: state; transitions ok -[fail]-> failed; end behavior; **};
bus net annex EMV2 {** use types p; use behavior p::m; error propagations bindings: out propagation {lost}; end propagations;
component error behavior propagations failed -[]-> bindings{lost}; end component; **}; end net;
bus lane annex EMV2 {** use types p; use behavior p::m; error propagations processor: in propagation {lost}; bindings: out propagation {lost};
flows through: error path processor{lost} -> bindings; end propagations; **}; end lane;
processor cpu annex EMV2 {** use types p; use behavior p::m; error propagations bindings: out propagation {lost}; end propagations;
component error behavior propagations failed -[]-> bindings{lost}; end component; **}; end cpu;
device d features i: in data port; o: out data port; annex EMV2 {** use types p; error propagations i: in propagation {lost}; o: out propagation {lost};
flows through: error path i{lost} -> o; end propagations; **}; end d;
thread t features o: out data port; annex EMV2 {** use types p; error propagations processor: in propagation {lost}; o: out propagation {lost};
flows through: error path processor{lost} -> o; end propagations; **}; end t;
"""


def model(body):
    return HEAD + body + "end p;\n"


def one_bus(count, bound):
    """A row of parts, all of whose connections are bound to one bus."""
    parts = "".join(f"d{n}: device d;\n" for n in range(count))
    wires = "".join(f"c{n}: port d{n}.o -> d{n + 1}.i;\n" for n in range(count - 1))
    last = f"z: port d{count - 1}.o -> o;\n"
    targets = ", ".join(f"c{n}" for n in range(count - 1))
    properties = f"properties Actual_Connection_Binding => (reference (b)) applies to {targets};\n" if bound else ""
    return model(
        "system s features o: out data port; annex EMV2 {** use types p; error propagations o: out propagation {lost}; end propagations; **}; end s;\n"
        f"system implementation s.i subcomponents b: bus net;\n{parts}connections\n{wires}{last}{properties}end s.i;\n"
    )


def one_property_each(count, bound):
    """The same, with a property of its own for each connection."""
    text = one_bus(count, False)
    lines = "".join(f"Actual_Connection_Binding => (reference (b)) applies to c{n};\n" for n in range(count - 1))
    return text.replace("end s.i;", f"properties\n{lines}end s.i;") if bound else text


def nested(depth, bound):
    """Threads in systems within each other, the outermost of which is bound to a processor."""
    body = "system s0 features o: out data port; annex EMV2 {** use types p; error propagations o: out propagation {lost}; end propagations; **}; end s0;\n"
    body += "system implementation s0.i subcomponents a: thread t; connections c: port a.o -> o; end s0.i;\n"
    for n in range(1, depth):
        body += f"system s{n} extends s0 end s{n};\nsystem implementation s{n}.i subcomponents x: system s{n - 1}.i; y: system s{n - 1}.i; a: thread t;\n"
        body += f"connections c: port x.o -> o; e: port y.o -> o; g: port a.o -> o; end s{n}.i;\n"
    properties = "properties Actual_Processor_Binding => (reference (cpu)) applies to x;\n" if bound else ""
    body += "system s extends s0 end s;\n"
    body += f"system implementation s.i subcomponents cpu: processor cpu; x: system s{depth - 1}.i; connections c: port x.o -> o; {properties}end s.i;\n"
    return model(body)


def buses_in_a_row(count, bound):
    """Buses each of which runs on the next one, and a connection on the first."""
    buses = "".join(f"b{n}: bus lane;\n" for n in range(count)) + f"b{count}: bus net;\n"
    runs = "".join(f"Actual_Processor_Binding => (reference (b{n + 1})) applies to b{n};\n" for n in range(count))
    properties = f"properties\n{runs}Actual_Connection_Binding => (reference (b0)) applies to c;\n" if bound else ""
    return model(
        "system s features o: out data port; annex EMV2 {** use types p; error propagations o: out propagation {lost}; end propagations; **}; end s;\n"
        f"system implementation s.i subcomponents\n{buses}a: device d; z: device d;\nconnections c: port a.o -> z.i; e: port z.o -> o;\n{properties}end s.i;\n"
    )


TARGET = "root/out:o{p::lost}"
MODELS = [
    ("one_bus 4000", one_bus, 4000, "root.b/fail"),
    ("one_property_each 4000", one_property_each, 4000, "root.b/fail"),
    ("nested 11", nested, 11, "root.cpu/fail"),
    ("buses_in_a_row 100", buses_in_a_row, 100, "root.b100/fail"),
    ("buses_in_a_row 2000", buses_in_a_row, 2000, "root.b2000/fail"),
]


def run(tool, words):
    before = resource.getrusage(resource.RUSAGE_CHILDREN)
    done = subprocess.run([tool, *words], capture_output=True, text=True)
    after = resource.getrusage(resource.RUSAGE_CHILDREN)
    return done, (after.ru_utime - before.ru_utime) + (after.ru_stime - before.ru_stime)


def least(tool, words, times):
    runs = [run(tool, words) for _ in range(times)]
    return runs[0][0], min(seconds for _, seconds in runs)


def main():
    parser = argparse.ArgumentParser(description=__doc__, formatter_class=argparse.RawDescriptionHelpFormatter)
    parser.add_argument("--tool", required=True)
    parser.add_argument("--times", type=int, default=3)
    asked = parser.parse_args()
    tool = os.path.abspath(asked.tool)
    wrong = 0
    print(f"{'model':24} {'command':6} {'plain':>8} {'first':>8} {'second':>8} {'/plain':>7} {'/first':>7}")
    with tempfile.TemporaryDirectory() as folder:
        for name, make, size, event in MODELS:
            plain, bound = Path(folder) / "plain.aadl", Path(folder) / "bound.aadl"
            plain.write_text(make(size, False))
            bound.write_text(make(size, True))
            for command in ("check", "cuts"):
                target = [TARGET] if command == "cuts" else []
                more = ["--max-order", "1"] if command == "cuts" else []
                _, without = least(tool, [command, "p::s.i", *target, str(plain), *more], asked.times)
                _, first = least(tool, [command, "p::s.i", *target, str(bound), *more], asked.times)
                done, second = least(tool, [command, "p::s.i", *target, str(bound), *more, "--profile", "2"], asked.times)
                print(f"{name:24} {command:6} {without:8.2f} {first:8.2f} {second:8.2f} {second / max(without, 0.005):7.2f} {second / max(first, 0.005):7.2f}")
                if done.returncode or (command == "cuts" and f"1 {event}\n" not in done.stdout):
                    wrong += 1
                    print(f"WRONG {name}: {done.stderr.strip()} {done.stdout[:200]!r}")
    return 1 if wrong else 0


if __name__ == "__main__":
    sys.exit(main())
