"""Runs `aadl_fta fmea --all` over large models and prints a table: what was written, and what it took.

    python3 tables.py --tool PROGRAM

The model is one text, of which each table is known byte by byte: a wrong one says `WRONG`, and then the exit status is 1.
Seconds are those of the processor, and megabytes the most that the program had at once.
"""

import argparse
import os
import subprocess
import sys
import tempfile
from pathlib import Path

HEADER = "component,event,rate,effect,round"


def package(machine, body):
    return f"package p\npublic\nannex EMV2 {{**\n{machine}**}};\n{body}end p;\n"


def states(count):
    return "ok: initial state;" + "".join(f" s{n}: state;" for n in range(1, count + 1))


def parts():
    """4,000 devices with an event each, whose rate the device says."""
    machine = (
        "error behavior m events e: error event; states ok: initial state; bad: state;\n"
        "transitions ok -[e]-> bad; end behavior;\n"
    )
    device = (
        "device d annex EMV2 {** use behavior p::m; properties\n"
        "EMV2::OccurrenceDistribution => [ProbabilityValue => 1.0e-5; Distribution => Poisson;] applies to e; **}; end d;\n"
    )
    inside = "".join(f"d{n}: device d;\n" for n in range(4_000))
    body = device + f"system s end s; system implementation s.i subcomponents\n{inside}end s.i;\n"
    rows = [f"root.d{n},root.d{n}/e,lambda=1.0e-5,root.d{n}/state:bad,2" for n in range(4_000)]
    return package(machine, body), rows


def named():
    """The same, where the root says each rate by a path, and the devices say another."""
    text, _ = parts()
    said = "".join(
        f"EMV2::OccurrenceDistribution => [ProbabilityValue => 0.{n:04}; Distribution => Fixed;] applies to d{n}.e;\n"
        for n in range(4_000)
    )
    text = text.replace("end s.i;\n", f"annex EMV2 {{** properties\n{said}**}}; end s.i;\n")
    rows = [f"root.d{n},root.d{n}/e,prob=0.{n:04},root.d{n}/state:bad,2" for n in range(4_000)]
    return text, rows


def little():
    """4,000 events, each of which reaches 4 of its component's 64 states: 260,000 facts in all."""
    machine = (
        f"error behavior m events e: error event; states {states(64)}\n"
        "transitions ok -[e]-> s1; s1 -[e]-> s2; s2 -[e]-> s3; s3 -[e]-> s4;"
        + "".join(f" s{n} -[e]-> s{n + 1};" for n in range(5, 64))
        + "\nend behavior;\n"
    )
    inside = "".join(f"d{n}: device d;\n" for n in range(4_000))
    body = f"device d annex EMV2 {{** use behavior p::m; **}}; end d;\nsystem s end s; system implementation s.i subcomponents\n{inside}end s.i;\n"
    rows = [f"root.d{n},root.d{n}/e,prob=1,root.d{n}/state:s{k},{k + 1}" for n in range(4_000) for k in range(1, 5)]
    return package(machine, body), rows


def million():
    """1,000 events, each of which reaches all of 1,000 states in turn: a million rows."""
    events = "".join(f" e{n}: error event;" for n in range(1_000))
    first = "".join(f" ok -[e{n}]-> s1;" for n in range(1_000))
    # the states behind the first follow from its output, which each passes on without an event
    library = "error types t: type; end types;\n"
    machine = f"error behavior m events{events} states ok: initial state; s1: state;\ntransitions{first}\nend behavior;\n"
    machine += "error behavior n states ok: initial state; s2: state; transitions ok -[in i]-> s2; end behavior;\n"
    source = (
        "device d features o: out event port; annex EMV2 {** use types p; use behavior p::m; error propagations\n"
        "o: out propagation {t}; end propagations; component error behavior propagations s1 -[]-> o; end component; **}; end d;\n"
    )
    sink = (
        "device g features i: in event port; annex EMV2 {** use types p; use behavior p::n; error propagations\n"
        "i: in propagation {t}; end propagations; **}; end g;\n"
    )
    inside = "d: device d;\n" + "".join(f"g{n}: device g;\n" for n in range(998))
    wires = "".join(f"c{n}: port d.o -> g{n}.i;\n" for n in range(998))
    body = source + sink + f"system s end s; system implementation s.i subcomponents\n{inside}connections\n{wires}end s.i;\n"
    rows = []
    for n in range(1_000):
        reached = ["root.d/state:s1,2", "root.d/out:o{p::t},3"] + [f"root.g{k}/state:s2,5" for k in range(998)]
        rows += [f"root.d,root.d/e{n},prob=1,{effect}" for effect in reached]
    return package(library + machine, body), rows


SHAPES = [parts, named, little, million]


def main():
    parser = argparse.ArgumentParser(description=__doc__.splitlines()[0])
    parser.add_argument("--tool", required=True, type=Path)
    options = parser.parse_args()
    tool = options.tool.resolve()
    print("| table | bytes of text | rows | bytes of table | s | MB |\n|---|---|---|---|---|---|")
    wrong = False
    with tempfile.TemporaryDirectory() as folder:
        for shape in SHAPES:
            text, rows = shape()
            wanted = "".join(f"{line}\n" for line in [HEADER, *rows]).encode()
            file = Path(folder) / f"{shape.__name__}.aadl"
            file.write_text(text)
            with tempfile.TemporaryFile() as out, tempfile.TemporaryFile() as err:
                child = subprocess.Popen([tool, "fmea", "p::s.i", file, "--all"], stdout=out, stderr=err)
                _, status, used = os.wait4(child.pid, 0)
                child.returncode = os.waitstatus_to_exitcode(status)
                out.seek(0)
                err.seek(0)
                printed, line = out.read(), err.read().decode().strip()
            right = printed == wanted
            wrong = wrong or not right
            end = "" if right else f" WRONG: {len(printed)} bytes, {line}"
            seconds, megabytes = used.ru_utime + used.ru_stime, used.ru_maxrss / 1024
            cells = [shape.__name__, len(text), len(rows), len(wanted), f"{seconds:.2f}", f"{megabytes:.0f}"]
            print("| " + " | ".join(map(str, cells)) + " |" + end, flush=True)
    sys.exit(1 if wrong else 0)


if __name__ == "__main__":
    main()
