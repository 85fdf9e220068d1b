#!/usr/bin/env python3
"""Runs `aadl_fta report` over families of up to 2 to the 512th sets, and prints a table: what was written, what it took, and how that grows.

    reports.py --tool PROGRAM [--size N] [--seconds N] [--megabytes N] [NAME..]

First each case alone, and then shapes of sizes n, 2n and 4n. Each text is known byte by byte: a wrong one says `WRONG`, and then the
exit status is 1. Counts stop at 2 ^ 64 - 1. Seconds are those of the processor, and megabytes the most that the program had at once.
The last column is the exponent by which the seconds grow from the row before: 1 is linear, and 2 is the square.
"""

import argparse
import math
import sys
import tempfile
from math import comb
from pathlib import Path

sys.dont_write_bytecode = True
import shapes
from run import run

LAST = 2**64 - 1


def wanted(orders, uses, singles):
    """The text of all three reports: sets by order, sets by event in the order of the events, and single events."""
    lines = ["report orders"]
    lines += [f"order {order} count {min(count, LAST)}" for order, count in orders if count]
    lines += ["report uses"]
    lines += [f"event {event} count {min(count, LAST)}" for event, count in uses if count]
    lines += ["report singles"]
    lines += [f"single {event}" for event in singles]
    return "".join(f"{line}\n" for line in lines)


def pairs(count, order=None):
    """One event of each of some pairs; a greatest order that is less lets none through."""
    shape = shapes.pairs(count, True)
    some = order is None or order >= count
    uses = [(f"root/{event}", 2 ** (count - 1) if some else 0) for event in shape.machine.events]
    words = [] if order is None else ["--max-order", str(order)]
    return shape, words, wanted([(count, 2**count if some else 0)], uses, [])


def choices(sizes):
    """One event of each of some groups, or one event that does alone."""
    groups = [[f"g{group}e{n}" for n in range(size)] for group, size in enumerate(sizes)]
    events = ["alone"] + [event for group in groups for event in group]
    condition = shapes.either("alone", shapes.both(*(shapes.either(*group) for group in groups)))
    machine = shapes.Machine(events, [shapes.INITIAL, "bad"], shapes.from_ok([("bad", condition)]))
    total = 1
    for size in sizes:
        total *= size
    uses = [("root/alone", 1)] + [(f"root/{event}", total // len(group)) for group in groups for event in group]
    shape = shapes.Shape("choices", "", "bad", total + 1, machine)
    return shape, [], wanted([(1, 1), (len(sizes), total)], uses, ["root/alone"])


def counted(least, count):
    """At least so many of some events."""
    shape = shapes.counted(least, count)
    uses = [(f"root.e{n}/source:e", comb(count - 1, least - 1)) for n in range(count)]
    return shape, [], wanted([(least, comb(count, least))], uses, [])


CASES = {
    "pairs_20": lambda: pairs(20),
    "pairs_27": lambda: pairs(27),
    "pairs_32": lambda: pairs(32),
    "pairs_40": lambda: pairs(40),
    "pairs_40_order_39": lambda: pairs(40, 39),
    "pairs_60": lambda: pairs(60),
    "pairs_63": lambda: pairs(63),
    "pairs_64": lambda: pairs(64),
    "pairs_65": lambda: pairs(65),
    "pairs_400": lambda: pairs(400),
    "choices_3_to_22": lambda: choices(range(3, 23)),
    "choices_100_each": lambda: choices([100] * 10),
    "counted_30_of_60": lambda: counted(30, 60),
    "counted_150_of_300": lambda: counted(150, 300),
}

GROWING = {
    "pairs_of_n": pairs,
    "threes_of_n": lambda size: choices([3] * (size * 2 // 3)),
    "counted_of_n": lambda size: counted(size // 4, size // 2),
}


def measured(tool, case, folder, options):
    """The cells of a row of the table, the seconds, and what is wrong, if anything is."""
    shape, words, text = case
    file, output = folder / "model.aadl", folder / "output.txt"
    if shape.machine is not None:
        file.write_text(shapes.aadl_text(shape.machine))
        root = ["p::s", f"root/state:{shape.target}"]
    else:
        file.write_text(shapes.network_text(shape.gates, shapes.events_of(shape.gates)))
        root = ["p::s.i", f"root.{shape.target}/out:o{{p::t}}"]
    done = run([tool, "report", *root, file, *words], output, options.seconds, options.megabytes)
    right = done.status == 0 and output.read_text() == text
    cells = [shape.counts()[1], file.stat().st_size, len(text), f"{done.seconds:.2f}", f"{done.megabytes:.0f}"]
    return cells, done.seconds, "" if right else f" WRONG: {done.status}, {done.errors}"


def main():
    parser = argparse.ArgumentParser(description=__doc__.splitlines()[0])
    parser.add_argument("--tool", required=True, type=Path)
    parser.add_argument("--size", type=int, default=128, help="the smallest size of the shapes that grow, at most 128")
    parser.add_argument("--seconds", type=int, default=60)
    parser.add_argument("--megabytes", type=int, default=4096)
    parser.add_argument("names", nargs="*", metavar="NAME", help=", ".join([*CASES, *GROWING]))
    options = parser.parse_args()
    tool = options.tool.resolve()
    print("| case | size | events | bytes of model | of text | s | MB | exponent |\n|---|---|---|---|---|---|---|---|")
    wrong = False
    with tempfile.TemporaryDirectory() as folder:
        for name in options.names or [*CASES, *GROWING]:
            before = None
            for size in [options.size * k for k in (1, 2, 4)] if name in GROWING else [None]:
                case = CASES[name]() if size is None else GROWING[name](size)
                cells, seconds, end = measured(tool, case, Path(folder), options)
                wrong = wrong or bool(end)
                grown = "" if not before else f"{math.log2(max(seconds, 0.001) / max(before, 0.001)):.2f}"
                before = seconds
                print("| " + " | ".join(map(str, [name, size or "", *cells, grown])) + " |" + end, flush=True)
    sys.exit(1 if wrong else 0)


if __name__ == "__main__":
    main()
