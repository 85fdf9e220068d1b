"""Runs `aadl_fta fmea` over rings of n, 2n and 4n devices and prints a table: what was written, what it took, and how that grows.

    python3 rings.py --tool PROGRAM [--devices N] [NAME..]

Each device hands on every type that comes in, and its own event gives one to the next device, so an event reaches all others. Each table is known byte by byte: a wrong one says
`WRONG`, and then the exit status is 1. Seconds are those of the processor, and megabytes the most that the program had at once. The
last column is the exponent by which the seconds grow from the row before: 1 is linear, and 2 is the square.
"""

import argparse
import math
import os
import subprocess
import sys
import tempfile
from pathlib import Path

HEADER = "component,event,rate,effect,round"
TYPES = [f"t{n}" for n in range(31)]
ALL = ", ".join(TYPES)
MACHINES = (
    "error behavior m events e: error event; states ok: initial state; bad: state; transitions ok -[e]-> bad; end behavior;\n"
    "error behavior r states ok: initial state; bad: state; end behavior;\n"
)


STATES = " use behavior p::m;", "", "component error behavior propagations bad -[]-> q{t0}; end component; "


def model(count, machines="", devices="", parts="", wires="", root="", features="", own=STATES):
    """A ring of devices, with what else a shape has, and what gives each device's own event."""
    passed = "".join(f" f{n}: error path i{{{name}}} -> o{{{name}}};" for n, name in enumerate(TYPES))
    device = (
        "device d features i: in event port; o: out event port; q: out event port; annex EMV2 {** use types p;"
        f"{own[0]}\nerror propagations i: in propagation {{{ALL}}}; o: out propagation {{{ALL}}}; q: out propagation {{t0}}; flows{own[1]}{passed} end propagations;\n"
        f"{own[2]}**}}; end d;\n"
    )
    ring = "".join(f"d{n}: device d;\n" for n in range(count))
    links = "".join(f"c{n}: port d{n}.o -> d{(n + 1) % count}.i;\nb{n}: port d{n}.q -> d{(n + 1) % count}.i;\n" for n in range(count))
    types = "error types " + " ".join(f"{name}: type;" for name in TYPES) + " end types;\n"
    return (
        f"package p\npublic\nannex EMV2 {{**\n{types}{MACHINES}{machines}**}};\n{device}{devices}"
        f"system s {features}end s; system implementation s.i subcomponents\n{ring}{parts}connections\n{links}{wires}{root}end s.i;\nend p;\n"
    )


def composite(condition):
    return f"annex EMV2 {{** use types p; use behavior p::r; composite error behavior states [{condition}]-> bad; end composite; **}};\n"


def alone(count):
    """The root has no effect."""
    return model(count), []


def beside(count):
    """Each event reaches the root, and the ring does not."""
    root = composite(" or ".join(f"d{n}.bad" for n in range(count)))
    return model(count, root=root), [f"root.d{n},root.d{n}/e,prob=1,root/state:bad,3" for n in range(count)]


def needed(count):
    """What the ring gives reaches the root together with an event of another device, and no event does alone."""
    machine = "error behavior j states ok: initial state; bad: state; transitions ok -[a{t0} and b{t0}]-> bad; end behavior;\n"
    devices = (
        "device j features a: in event port; b: in event port; annex EMV2 {** use types p; use behavior p::j; error propagations\n"
        "a: in propagation {t0}; b: in propagation {t0}; end propagations; **}; end j;\n"
        "device x features o: out event port; annex EMV2 {** use types p; error propagations\n"
        "o: out propagation {t0}; flows s: error source o{t0}; end propagations; **}; end x;\n"
    )
    parts = "j: device j;\nx: device x;\n"
    wires = "ca: port d0.o -> j.a;\ncb: port x.o -> j.b;\n"
    return model(count, machine, devices, parts, wires, composite("j.bad")), []


PORT = f"features o: out event port; annex EMV2 {{** use types p; error propagations o: out propagation {{{ALL}}}; end propagations; **}}; "


def fed(count):
    """The ring leaves the root, so each event has a row."""
    rows = [f"root.d{n},root.d{n}/e,prob=1,root/out:o{{p::t0}},{4 + 2 * (count - n)}" for n in range(count)]
    return model(count, wires="co: port d0.o -> o;\n", features=PORT), rows


def sources(count):
    """The same, of error sources in the place of states."""
    rows = [f"root.d{n},root.d{n}/source:s,prob=1,root/out:o{{p::t0}},{2 + 2 * (count - n)}" for n in range(count)]
    return model(count, wires="co: port d0.o -> o;\n", features=PORT, own=("", " s: error source q{t0};", "")), rows


SHAPES = {shape.__name__: shape for shape in [alone, beside, needed, fed, sources]}


def run(tool, file):
    """What the table of a file is, with the line of the error stream, and what it took."""
    with tempfile.TemporaryFile() as out, tempfile.TemporaryFile() as err:
        child = subprocess.Popen([tool, "fmea", "p::s.i", file], stdout=out, stderr=err)
        _, status, used = os.wait4(child.pid, 0)
        child.returncode = os.waitstatus_to_exitcode(status)
        out.seek(0)
        err.seek(0)
        return out.read(), err.read().decode().strip(), used.ru_utime + used.ru_stime, used.ru_maxrss / 1024


def main():
    parser = argparse.ArgumentParser(description=__doc__.splitlines()[0])
    parser.add_argument("--tool", required=True, type=Path)
    parser.add_argument("--devices", type=int, default=1_000, help="how many devices the smallest ring has, at most 1,000")
    parser.add_argument("names", nargs="*", metavar="NAME", help=", ".join(SHAPES))
    options = parser.parse_args()
    tool = options.tool.resolve()
    print("| ring | devices | bytes of text | rows | s | MB | exponent |\n|---|---|---|---|---|---|---|")
    wrong = False
    with tempfile.TemporaryDirectory() as folder:
        for name in options.names or SHAPES:
            before = None
            for count in [options.devices * k for k in (1, 2, 4)]:
                text, rows = SHAPES[name](count)
                wanted = "".join(f"{line}\n" for line in [HEADER, *rows]).encode()
                file = Path(folder) / f"{name}.aadl"
                file.write_text(text)
                printed, line, seconds, megabytes = run(tool, file)
                right = printed == wanted
                wrong = wrong or not right
                end = "" if right else f" WRONG: {len(printed)} bytes, {line}"
                grown = "" if not before else f"{math.log2(max(seconds, 0.001) / max(before, 0.001)):.2f}"
                before = seconds
                cells = [name, count, len(text), len(rows), f"{seconds:.2f}", f"{megabytes:.0f}", grown]
                print("| " + " | ".join(map(str, cells)) + " |" + end, flush=True)
    sys.exit(1 if wrong else 0)


if __name__ == "__main__":
    main()
