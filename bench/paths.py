#!/usr/bin/env python3
"""Minimal path sets of the shapes: how long `paths` takes, beside `cuts`.

    paths.py --tool PROGRAM [--seconds N] [--megabytes N] [NAME..]    runs both over each shape, and prints a table

How many path sets there are is known from most shapes. Where both listings are whole and short, each path set is held against each cut
set: it must meet all of them, and each of its events must be the only one that meets some. A wrong number, or a set that is none, says
`WRONG`. Of shapes with more path sets than can be listed the first 1,000 are asked for. `loop_200` is a loop of 200 facts, which is
unrolled into as many stages first.
"""

import argparse
import sys
import tempfile
from math import comb
from pathlib import Path

sys.dont_write_bytecode = True
import shapes
from run import run

FIRST = 1_000


def known():
    """Of each shape how many path sets it has; None where a shape does not say it."""
    numbers = {
        "chain_100_100": 100, "chain_1000_1000": 1000, "chain_16383_8": 8, "pairs_good_16": 16, "pairs_bad_12": 12, "pairs_bad_16": 16,
        "ladder_16": 16, "scattered_30": 30, "ring_own_100": 100, "ring_own_500": 500, "ring_shared_1000": 2, "any_1024": 1,
        "star_500": 2**500, "chains_20_50": 50**20, "written_out_5_of_10": comb(10, 6), "written_out_7_of_14": comb(14, 8),
        "counted_3_of_60": comb(60, 58), "counted_12_of_24": comb(24, 13), "counted_36_of_40": comb(40, 5),
        "counted_100_of_300_first": comb(300, 201), "grid_6_6": comb(10, 5), "grid_10_6": comb(14, 5), "grid_8_8_first": comb(14, 7),
        "grid_20_50_order_4": 0, "bomb_60": 60,
    }
    loop = shapes.ring(200, False)
    loop.name, loop.about = "loop_200", "a loop of 200 facts, with an event for each step"
    return [(shape, numbers.get(shape.name)) for shape in shapes.all_shapes()] + [(loop, 200)]


def words_of(shape):
    """The root and the target of a shape."""
    return ["p::s.i", f"root.{shape.target}/out:o{{p::t}}"] if shape.machine is None else ["p::s", f"root/state:{shape.target}"]


def sets_of(file):
    """The sets of a listing, and whether it is whole."""
    lines = file.read_text().splitlines()
    return [frozenset() if line == "0 none" else frozenset(line.split(" ")[1].split("+")) for line in lines[:-1]], lines[-1:]


def fits(cuts, paths):
    """Whether each path set meets each cut set, and needs each of its events for it."""
    for path in paths:
        alone = set()
        for cut in cuts:
            met = path & cut
            if not met:
                return False
            if len(met) == 1:
                alone |= met
        if alone != path:
            return False
    return True


def main():
    parser = argparse.ArgumentParser(description=__doc__.splitlines()[0])
    parser.add_argument("--tool", required=True, help="the program aadl_fta")
    parser.add_argument("--seconds", type=int, default=60, help="processor seconds that a run may take")
    parser.add_argument("--megabytes", type=int, default=4096, help="memory that a run may take")
    parser.add_argument("names", nargs="*", help="the shapes; all without one")
    options = parser.parse_args()
    tool = Path(options.tool).resolve()
    print("| shape | cut sets | s | MB | path sets | s | MB | held |\n|---|---|---|---|---|---|---|---|", flush=True)
    wrong = False
    with tempfile.TemporaryDirectory() as name:
        folder = Path(name)
        for shape, number in known():
            if options.names and shape.name not in options.names:
                continue
            shapes.write(shape, folder)
            file = folder / f"{shape.name}.aadl"
            order = [option for option in shape.options if "--limit" not in shape.options]
            limit = [] if number is not None and number <= 5_000_000 else ["--limit", str(FIRST)]
            cut = run([tool, "cuts", *words_of(shape), file, *shape.options], folder / "cuts", options.seconds, options.megabytes)
            path = run([tool, "paths", *words_of(shape), file, *order, *limit], folder / "paths", options.seconds, options.megabytes)
            held, right, cells = "", True, []
            if shape.refusal:
                right = all(done.errors.startswith(f"aadl_fta: {shape.refusal} ") for done in (cut, path))
                cells = [shape.refusal, shape.refusal]
            elif cut.status or path.status:
                right = not any(done.status > 0 for done in (cut, path))
                cells = ["-" if done.status else "" for done in (cut, path)]
            else:
                (cuts, cut_end), (paths, path_end) = sets_of(cut.output), sets_of(path.output)
                cells = [str(len(cuts)), str(len(paths)) + (" and more" if path_end == ["more"] else "")]
                if number is None:
                    right = path_end == ["end"] or (path_end == ["more"] and len(paths) == FIRST)
                else:
                    wanted = min(number, FIRST) if limit else number
                    right = len(paths) == wanted and path_end == (["more"] if wanted < number else ["end"])
                if cut_end == ["end"] and not shape.order and len(cuts) * len(paths) <= 20_000_000:
                    held = "each"
                    right = right and fits(cuts, paths)
            wrong = wrong or not right
            end = "" if right else f" WRONG: {cut.status} {cut.errors} {path.status} {path.errors}"
            print(f"| {shape.name} | {cells[0]} | {cut.seconds:.2f} | {cut.megabytes:.0f} | {cells[1]} | {path.seconds:.2f} | "
                  f"{path.megabytes:.0f} | {held} |" + end, flush=True)
    sys.exit(1 if wrong else 0)


if __name__ == "__main__":
    main()
