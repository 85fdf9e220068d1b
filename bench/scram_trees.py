#!/usr/bin/env python3
"""The fault trees that come with scram: the sets that `galileo` lists of each, beside those that scram finds.

    scram_trees.py --tool PROGRAM [--scram PROGRAM] [--folder FOLDER] [--seconds N]

Each tree is written as Galileo text, with its gates and events as they stand; constants are worked out, and a tree with `not`
or `xor` is left out, since such a text has no word for them. Where the two lists of sets differ, the table says `WRONG`.
"""

import argparse
import re
import shutil
import subprocess
import sys
import tempfile
import time
import xml.etree.ElementTree as xml
from pathlib import Path

# The files of each tree, and the greatest order that is asked for.
TREES = [
    (["SmallTree/SmallTree.xml"], 20), (["ThreeMotor/three_motor.xml"], 20), (["TwoTrain/two_train.xml"], 20), (["Theatre/theatre.xml"], 20),
    (["Lift/lift.xml"], 20), (["HIPPS/HIPPS.xml"], 20), (["BSCU/BSCU.xml"], 20), (["Chinese/chinese.xml", "Chinese/chinese-basic-events.xml"], 20),
    (["Baobab/baobab1.xml", "Baobab/baobab1-basic-events.xml"], 20), (["Baobab/baobab2.xml", "Baobab/baobab2-basic-events.xml"], 20),
    (["CEA9601/CEA9601.xml", "CEA9601/CEA9601-basic-events.xml"], 4),
]


class Unsuited(Exception):
    """The tree has what no Galileo text has."""


class Translation:
    """The lines of a tree."""

    def __init__(self, files):
        self.gates, self.constants, self.events, self.lines, self.used = {}, {}, set(), [], set()
        for file in files:
            for item in xml.parse(file).getroot().iter():
                name = item.get("name")
                if item.tag == "define-gate":
                    self.gates[name] = [part for part in item if part.tag not in ("label", "attributes")][0]
                elif item.tag == "define-house-event":
                    self.constants[name] = item.find("constant").get("value") == "true"
        named = {part.get("name").split(".")[-1] for formula in self.gates.values() for part in formula.iter() if part.get("name")}
        self.tops = [name for name in self.gates if name not in named]
        if len(self.tops) != 1:
            raise Unsuited(f"{len(self.tops)} tops")
        self.values = {}

    def value(self, formula, gate):
        """A truth value, or the name of a node."""
        if formula.tag == "constant":
            return formula.get("value") == "true"
        if formula.tag in ("gate", "event", "basic-event", "house-event"):
            name = formula.get("name").split(".")[-1]
            if name in self.gates:
                if name not in self.values:
                    self.values[name] = self.value(self.gates[name], name)
                return self.values[name]
            if name in self.constants:
                return self.constants[name]
            self.events.add(name)
            return name
        if formula.tag not in ("and", "or", "atleast"):
            raise Unsuited(formula.tag)
        inputs = [self.value(part, None) for part in formula]
        least = {"and": len(inputs), "or": 1}.get(formula.tag) or int(formula.get("min"))
        least -= sum(1 for each in inputs if each is True)
        inputs = [each for each in inputs if not isinstance(each, bool)]
        if least <= 0 or least > len(inputs):
            return least <= 0
        name = gate if gate and gate not in self.used else f"gate#{len(self.used)}"
        self.used.add(name)
        kind = "or" if least == 1 else "and" if least == len(inputs) else f"{least}of{len(inputs)}"
        self.lines.append(f'"{name}" {kind} ' + " ".join(f'"{each}"' for each in inputs) + ";")
        return name

    def text(self):
        top = self.value(self.gates[self.tops[0]], self.tops[0])
        if isinstance(top, bool):
            raise Unsuited("constant")
        lines = [f'toplevel "{top}";'] + self.lines + [f'"{event}" prob=1;' for event in sorted(self.events)]
        return "".join(f"{line}\n" for line in lines)


def timed(words, seconds):
    begin = time.monotonic()
    try:
        done = subprocess.run(words, capture_output=True, timeout=seconds)
    except subprocess.TimeoutExpired:
        return None, seconds
    return done, time.monotonic() - begin


def sets_of_scram(report):
    sets = set()
    for product in xml.parse(report).getroot().iter("product"):
        sets.add(frozenset(part.get("name").split(".")[-1] for part in product.iter("basic-event")))
    return sets


def main():
    parser = argparse.ArgumentParser(description="Runs aadl_fta over the trees of scram, and scram beside it.")
    parser.add_argument("--tool", required=True)
    parser.add_argument("--scram", default=shutil.which("scram"))
    parser.add_argument("--folder", default="/usr/share/scram/input")
    parser.add_argument("--seconds", type=float, default=60)
    options = parser.parse_args()
    print("| tree | gates | events | greatest order | sets | s | scram: sets | s | |\n|---|---|---|---|---|---|---|---|---|")
    with tempfile.TemporaryDirectory() as folder:
        for files, order in TREES:
            paths = [str(Path(options.folder) / file) for file in files]
            name = Path(files[0]).stem
            try:
                translation = Translation(paths)
                Path(folder, "tree.dft").write_text(translation.text())
            except Unsuited as why:
                print(f"| {name} | left out: {why} |")
                continue
            done, own = timed([options.tool, "galileo", f"{folder}/tree.dft", "--max-order", str(order)], options.seconds)
            if done is None or done.returncode != 0:
                print(f"| {name} | not listed: {done.stderr.decode().strip() if done else 'time'} |")
                continue
            listed = {frozenset(re.findall('"([^"]*)"', line)) for line in done.stdout.decode().splitlines()[:-1]}
            best = None
            for mode in ("zbdd", "bdd", "mocus"):
                report = f"{folder}/{mode}.xml"
                other, theirs = timed([options.scram, f"--{mode}", "--limit-order", str(order), "-o", report] + paths, options.seconds)
                if other is not None and other.returncode == 0 and (best is None or theirs < best[0]):
                    best = theirs, mode, report
            found = sets_of_scram(best[2]) if best else None
            verdict = "-" if found is None else "same" if found == listed else "WRONG"
            print(f"| {name} | {len(translation.lines)} | {len(translation.events)} | {order} | {len(listed)} | {own:.2f} |"
                  f" {len(found) if best else '-'} | {f'{best[0]:.2f} {best[1]}' if best else '-'} | {verdict} |", flush=True)


if __name__ == "__main__":
    sys.exit(main())
