#!/usr/bin/env python3
"""Whole models of the greatest sizes: how long `check` takes for each, and what it must print.

    models.py --tool PROGRAM    runs `aadl_fta check p::s.i` over each, and prints a table

How many components, facts and events there are is known from the shape, so each run is also a test: a wrong number says
`WRONG` in the table.
"""

import argparse
import os
import subprocess
import sys
import tempfile
from pathlib import Path


def package(library, body):
    return f"package p public\nannex EMV2 {{**\n{library}**}};\n{body}end p;\n"


def types(count):
    return "error types\n" + "".join(f"t{n}: type;\n" for n in range(count)) + "end types;\n"


def ring():
    """4,095 devices in a ring, of one kind with 31 types at either port: 64 facts and an event each."""
    library = types(31) + (
        "error behavior m events e: error event; states ok: initial state; bad: state;\n"
        "transitions ok -[e or in i]-> bad; end behavior;\n"
    )
    every = ", ".join(f"t{n}" for n in range(31))
    device = (
        "device d features i: in event port; o: out event port; annex EMV2 {**\nuse types p; use behavior p::m;\n"
        f"error propagations i: in propagation {{{every}}}; o: out propagation {{{every}}};\n"
        "flows f: error path i -> o; end propagations;\n"
        "component error behavior propagations bad -[]-> o{t0}; end component;\n**}; end d;\n"
    )
    parts = "".join(f"s{n}: device d;\n" for n in range(4095))
    links = "".join(f"c{n}: port s{n}.o -> s{(n + 1) % 4095}.i;\n" for n in range(4095))
    system = f"system s end s; system implementation s.i subcomponents\n{parts}connections\n{links}end s.i;\n"
    return package(library, device + system), (4096, 4095 * 64, 4095)


def states():
    """One component of 100,000 states, each entered by the one event, and 100,000 transitions."""
    count = 100_000
    names = "".join(f"s{n}: state; " for n in range(1, count))
    steps = "".join(f"s{n} -[e]-> s{n + 1}; " for n in range(count - 1))
    library = f"error behavior m events e: error event; states s0: initial state; {names}\ntransitions {steps}\nend behavior;\n"
    body = "system s annex EMV2 {** use behavior p::m; **}; end s; system implementation s.i end s.i;\n"
    return package(library, body), (1, count, 1)


def points():
    """One device of 20,000 points, each with an error source, a path and an outgoing condition of its own."""
    count = 10_000
    library = types(1) + (
        "error behavior m events e: error event; states ok: initial state; bad: state;\n"
        "transitions ok -[e]-> bad; end behavior;\n"
    )
    features = "".join(f"i{n}: in event port; o{n}: out event port; " for n in range(count))
    sides = "".join(f"i{n}: in propagation {{t0}}; o{n}: out propagation {{t0}}; " for n in range(count))
    flows = "".join(f"f{n}: error path i{n} -> o{n}; " for n in range(count))
    out = "".join(f"bad -[i{n}]-> o{n}; " for n in range(0, count, 2))
    device = (
        f"device d features {features} annex EMV2 {{** use types p; use behavior p::m;\nerror propagations {sides}\n"
        f"flows {flows} end propagations;\ncomponent error behavior propagations {out} end component; **}}; end d;\n"
    )
    links = "".join(f"c{n}: port a.o{n} -> b.i{n}; d{n}: port b.o{n} -> a.i{n}; " for n in range(count))
    body = device + f"system s end s; system implementation s.i subcomponents a: device d; b: device d; connections {links} end s.i;\n"
    return package(library, body), (3, 2 * (2 + 2 * count), 2)


def into_one():
    """100,000 connections into one port, from one port: as many links."""
    library = types(1)
    device = (
        "device d features i: in event port; o: out event port; annex EMV2 {** use types p;\n"
        "error propagations i: in propagation {t0}; o: out propagation {t0}; end propagations; **}; end d;\n"
    )
    links = "".join(f"c{n}: port a.o -> b.i; " for n in range(100_000))
    body = device + f"system s end s; system implementation s.i subcomponents a: device d; b: device d; connections {links} end s.i;\n"
    return package(library, body), (3, 4, 1)


def few_used():
    """13,000 classifiers of which three are used."""
    library = types(1)
    devices = "".join(
        f"device d{n} features o: out event port; annex EMV2 {{** use types p; error propagations o: out propagation {{t0}}; "
        f"flows f: error source o{{t0}}; end propagations; **}}; end d{n}; -- {'x' * 120}\n"
        for n in range(13_000)
    )
    body = devices + "system s end s; system implementation s.i subcomponents a: device d7; b: device d12000; end s.i;\n"
    return package(library, body), (3, 2, 2)


def extended():
    """1,024 types, each of which extends the one before, and an open input of the first: each comes in there."""
    chain = "t0: type;\n" + "".join(f"t{n}: type extends t{n - 1};\n" for n in range(1, 1024))
    library = "error types\n" + chain + "end types;\n" + (
        "error behavior m events e: error event; states ok: initial state; bad: state;\n"
        "transitions ok -[e or in i]-> bad; end behavior;\n"
    )
    device = (
        "device d features i: in event port; annex EMV2 {**\nuse types p; use behavior p::m;\n"
        "error propagations i: in propagation {t0}; end propagations;\n**}; end d;\n"
    )
    system = "system s end s; system implementation s.i subcomponents d1: device d; end s.i;\n"
    return package(library, device + system), (2, 2 + 1024, 1 + 1024)


def bound():
    """4,094 processes that one list of the root binds to one processor: a link each, and a fact each for what comes along it."""
    count = 4094
    library = types(1) + (
        "error behavior m events e: error event; states ok: initial state; bad: state;\ntransitions ok -[e]-> bad; end behavior;\n"
    )
    processor = (
        "processor c annex EMV2 {** use types p; use behavior p::m; error propagations bindings: out propagation {t0};\n"
        "flows f: error source bindings{t0} when bad; end propagations; **}; end c;\n"
    )
    process = "process w annex EMV2 {** use types p; error propagations processor: in propagation {t0}; end propagations; **}; end w;\n"
    parts = "".join(f"w{n}: process w;\n" for n in range(count))
    names = ", ".join(f"w{n}" for n in range(count))
    system = (
        f"system s end s; system implementation s.i subcomponents\nc: processor c;\n{parts}"
        f"properties Actual_Processor_Binding => (reference (c)) applies to {names};\nend s.i;\n"
    )
    return package(library, processor + process + system), (count + 2, count + 3, 1)


def typed():
    """255 states and an event, each with 1,024 types; each state is entered from the one before."""
    chain = "t0: type;\n" + "".join(f"t{n}: type extends t{n - 1};\n" for n in range(1, 1024))
    names = "".join(f"s{n}: state {{t0}}; " for n in range(1, 256))
    steps = "".join(f"s{n}{{t1023}} -[e{{t1023}}]-> s{n + 1}; " for n in range(1, 255))
    library = "error types\n" + chain + "end types;\n" + (
        f"error behavior m use types p; events e: error event {{t0}}; states ok: initial state; {names}\n"
        f"transitions ok -[e{{t1023}}]-> s1; {steps}\nend behavior;\n"
    )
    body = "system s annex EMV2 {** use types p; use behavior p::m; **}; end s; system implementation s.i end s.i;\n"
    return package(library, body), (1, 1 + 255 * 1024, 1024)


SHAPES = [ring, states, points, into_one, few_used, extended, bound, typed]


def main():
    parser = argparse.ArgumentParser(description=__doc__.splitlines()[0])
    parser.add_argument("--tool", required=True, type=Path)
    options = parser.parse_args()
    tool = options.tool.resolve()
    print("| model | bytes | components | facts | events | s | MB |\n|---|---|---|---|---|---|---|")
    wrong = False
    with tempfile.TemporaryDirectory() as folder:
        for shape in SHAPES:
            text, numbers = shape()
            file = Path(folder) / f"{shape.__name__}.aadl"
            file.write_text(text)
            with tempfile.TemporaryFile() as out, tempfile.TemporaryFile() as err:
                child = subprocess.Popen([tool, "check", "p::s.i", file], stdout=out, stderr=err)
                _, status, used = os.wait4(child.pid, 0)
                child.returncode = os.waitstatus_to_exitcode(status)
                out.seek(0)
                err.seek(0)
                printed, line = out.read().decode(), err.read().decode().strip()
            wanted = "".join(f"{name} {number}\n" for name, number in zip(("components", "facts", "events"), numbers))
            right = printed == wanted
            wrong = wrong or not right
            end = "" if right else f" WRONG: {printed.split()} {line}"
            seconds, megabytes = used.ru_utime + used.ru_stime, used.ru_maxrss / 1024
            cells = [shape.__name__, len(text), *numbers, f"{seconds:.2f}", f"{megabytes:.0f}"]
            print("| " + " | ".join(map(str, cells)) + " |" + end, flush=True)
    sys.exit(1 if wrong else 0)


if __name__ == "__main__":
    main()
