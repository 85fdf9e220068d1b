#!/usr/bin/env python3
"""Runs `aadl_fta review` over models of growing sizes and prints a table: how many lines it wrote, and what it took.

    python3 reviews.py --tool PROGRAM [--seconds N]

Each shape is drawn in several sizes, each twice as large as the one before, so a column of seconds that grows fourfold is seen. Of the smallest size the text
is held against that of audit/second: where it is another one, a line says `WRONG`, and the exit status is 1. Seconds are those of the processor.
"""

import argparse
import os
import resource
import subprocess
import sys
import tempfile
from pathlib import Path

SECOND = Path(__file__).resolve().parent.parent / "audit" / "second"
TYPES = 20


def package(body, machine=""):
    names = " ".join(f"t{k}: type;" for k in range(TYPES))
    return f"package p public annex EMV2 {{** error types {names} end types; {machine} **}};\n{body}end p;\n"


def chain_of_states(size):
    """One part with a chain of states, each reached where types come in at one input."""
    states = "".join(f" s{n}: state;" for n in range(1, size + 1))
    steps = "ok -[i]-> s1;" + "".join(f" s{n} -[i]-> s{n + 1};" for n in range(1, size))
    machine = f"error behavior m states ok: initial state;{states} end behavior;"
    part = (
        "device d features i: in data port; o: out data port; annex EMV2 {** use types p; use behavior p::m;\n"
        f"error propagations i: in propagation {{{', '.join(f't{k}' for k in range(TYPES))}}}; o: out propagation {{t0}}; end propagations;\n"
        f"component error behavior transitions {steps} propagations s{size} -[]-> o{{t0}}; end component; **}}; end d;\n"
    )
    return package(part + "system s end s; system implementation s.i subcomponents d: device d; end s.i;\n", machine)


def parts_in_a_row(size):
    """Parts, each of which passes on what comes in, and the last of which nobody reads."""
    part = (
        "device d features i: in data port; o: out data port; annex EMV2 {** use types p; error propagations\n"
        "i: in propagation {t0, t1}; o: out propagation {t0, t1}; flows f: error path i -> o; end propagations; **}; end d;\n"
    )
    inside = "".join(f"d{n}: device d;\n" for n in range(size))
    wires = "".join(f"c{n}: port d{n}.o -> d{n + 1}.i;\n" for n in range(size - 1))
    return package(part + f"system s end s; system implementation s.i subcomponents\n{inside}connections\n{wires}end s.i;\n")


def parts_without_a_reader(size):
    """Sources that nobody reads, and inputs into which one source leads that sends nothing."""
    source = (
        "device d features o: out data port; annex EMV2 {** use types p; error propagations o: out propagation {t0, t1};\n"
        "flows f: error source o{t0}; end propagations; **}; end d;\n"
    )
    reader = (
        "device r features i: in data port; annex EMV2 {** use types p; error propagations i: in propagation {t0, t1};\n"
        "end propagations; **}; end r; device q features o: out data port; end q;\n"
    )
    inside = "".join(f"d{n}: device d;\nr{n}: device r;\n" for n in range(size)) + "q: device q;\n"
    wires = "".join(f"c{n}: port q.o -> r{n}.i;\n" for n in range(size))
    return package(source + reader + f"system s end s; system implementation s.i subcomponents\n{inside}connections\n{wires}end s.i;\n")


def units_in_clauses(size):
    """Units of one kind, and clauses over them, each of which leaves out another one."""
    states = "".join(f" s{k}: state;" for k in range(TYPES))
    machine = (
        "error behavior m events e: error event; states ok: initial state; bad: state; transitions ok -[e]-> bad; end behavior;\n"
        f"error behavior top states ok: initial state;{states} end behavior;"
    )
    unit = "device d annex EMV2 {** use behavior p::m; **}; end d;\n"
    inside = "".join(f"d{n}: device d;\n" for n in range(size))
    clauses = "".join(f"[{' and '.join(f'd{n}.bad' for n in range(size) if n != k)}]-> s{k};\n" for k in range(TYPES))
    annex = f"annex EMV2 {{** use behavior p::top; composite error behavior states\n{clauses}end composite; **}};"
    return package(unit + f"system s end s; system implementation s.i subcomponents\n{inside}{annex} end s.i;\n", machine)


def states_at_outputs(size):
    """One part with some states and many outputs; each state gives something at all of them but one."""
    states = "".join(f" s{k}: state;" for k in range(TYPES))
    events = "".join(f" e{k}: error event;" for k in range(TYPES))
    steps = "".join(f" ok -[e{k}]-> s{k};" for k in range(TYPES))
    machine = f"error behavior m events{events} states ok: initial state;{states} transitions{steps} end behavior;"
    outputs = "".join(f"o{n}: out data port;\n" for n in range(size))
    points = "".join(f"o{n}: out propagation {{t0}};\n" for n in range(size))
    given = "".join(f"s{k} -[]-> o{n}{{t0}};\n" for k in range(TYPES) for n in range(size) if n != k)
    part = (
        f"device d features {outputs} annex EMV2 {{** use types p; use behavior p::m; error propagations {points} end propagations;\n"
        f"component error behavior propagations {given} end component; **}}; end d;\n"
    )
    return package(part, machine)


def inputs_of_one_output(size):
    """One output that leads to each input of a part."""
    inputs = "".join(f"i{n}: in data port;\n" for n in range(size))
    points = "".join(f"i{n}: in propagation {{t0}};\n" for n in range(size))
    parts = (
        "device d features o: out data port; annex EMV2 {** use types p; error propagations o: out propagation {t0};\n"
        f"flows f: error source o{{t0}}; end propagations; **}}; end d;\ndevice r features {inputs} annex EMV2 {{** use types p; error propagations\n{points}"
        "end propagations; **}; end r;\n"
    )
    wires = "".join(f"c{n}: port d.o -> r.i{n};\n" for n in range(size))
    return package(parts + f"system s end s; system implementation s.i subcomponents d: device d; r: device r; connections\n{wires}end s.i;\n")


def in_one_line(size):
    """The same in a text of one line, in which the place of each finding is a column."""
    return inputs_of_one_output(size).replace("\n", " ")


SHAPES = {
    "a chain of states": ("p::s.i", chain_of_states, [100, 200, 400, 800]),
    "parts in a row": ("p::s.i", parts_in_a_row, [500, 1000, 2000, 4000]),
    "parts without a reader": ("p::s.i", parts_without_a_reader, [250, 500, 1000, 2000]),
    "units in clauses": ("p::s.i", units_in_clauses, [400, 800, 1600, 3200]),
    "states at outputs": ("p::d", states_at_outputs, [100, 200, 400, 800]),
    "inputs of one output": ("p::s.i", inputs_of_one_output, [1000, 2000, 4000, 8000]),
    "the same in one line": ("p::s.i", in_one_line, [1000, 2000, 4000, 8000]),
}


def main():
    parser = argparse.ArgumentParser(usage=__doc__)
    parser.add_argument("--tool", required=True)
    parser.add_argument("--seconds", type=int, default=120)
    options = parser.parse_args()
    wrong = 0
    for name, (root, make, sizes) in SHAPES.items():
        for size in sizes:
            with tempfile.TemporaryDirectory() as folder:
                file = os.path.join(folder, "m.aadl")
                Path(file).write_text(make(size))
                before = resource.getrusage(resource.RUSAGE_CHILDREN)
                limit = lambda: resource.setrlimit(resource.RLIMIT_CPU, (options.seconds, options.seconds))
                done = subprocess.run([options.tool, "review", root, file], capture_output=True, text=True, preexec_fn=limit)
                after = resource.getrusage(resource.RUSAGE_CHILDREN)
                seconds = after.ru_utime + after.ru_stime - before.ru_utime - before.ru_stime
                said = done.stderr.strip() if done.returncode else f"{done.stdout.count(chr(10))} lines"
                mark = ""
                if size == sizes[0]:
                    other = subprocess.run([SECOND, "review", root, file], capture_output=True, text=True)
                    if other.stdout != done.stdout or done.returncode:
                        mark, wrong = "  WRONG", wrong + 1
                print(f"{name:<24} {size:>6} {seconds:>8.2f} s  {said}{mark}", flush=True)
    return 1 if wrong else 0


if __name__ == "__main__":
    sys.exit(main())
