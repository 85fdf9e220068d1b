#!/usr/bin/env python3
"""The texts of `tree --format` before the programs that read them: SCRAM and Graphviz.

    formats.py --tool PROGRAM [--scram PROGRAM] [--dot PROGRAM] [FILE..]    in the folder of the repository

Of each file (examples/*.aadl, where none is named), each system implementation that the tool accepts as a root, and each target that `targets`
lists with a number: the Open-PSA text with written and with merged gates passes `scram --validate`, and each of SCRAM's three engines gives
the sets of `cuts`; `dot` draws the picture of both as SVG and as PDF. Where that is not so, a line says `WRONG`, and the exit status is 1.
SCRAM 0.16.2 itself gives other sets than the text has for some counting gates whose inputs have events in common. Where one has an event twice,
through a gate of one input, the sets are not held against `cuts`, and the last line says how many such texts there are.
"""

import argparse
import re
import subprocess
import sys
import tempfile
import xml.etree.ElementTree as xml
from pathlib import Path

ENGINES = ["--bdd", "--zbdd", "--mocus"]


def run(*words):
    return subprocess.run(words, capture_output=True, text=True, encoding="utf-8", errors="surrogateescape")


def roots(text):
    package = re.search(r"^\s*package\s+([\w:]+)", text, re.I | re.M)
    for name in re.findall(r"^\s*system\s+implementation\s+([\w.]+)", text, re.I | re.M) if package else []:
        yield f"{package.group(1)}::{name}"


def sets_of_scram(scram, engine, file, names):
    """The products of a text, each by the names of its events."""
    answer = run(scram, engine, file)
    if answer.returncode != 0:
        return answer.stderr
    products = xml.fromstring(answer.stdout).iter("product")
    return sorted(sorted(names[event.get("name")] for event in product.iter("basic-event")) for product in products)


def counts_one_twice(text):
    """Whether a counting gate has one node twice, where a gate of one input is its input."""
    gates = {gate.get("name"): [part for part in gate if part.tag != "label"][0] for gate in text.iter("define-gate")}

    def node(part):
        while part.tag == "gate" and gates[part.get("name")].tag in ("gate", "basic-event"):
            part = gates[part.get("name")]
        return part.get("name")

    inputs = [[node(part) for part in formula] for formula in gates.values() if formula.tag == "atleast"]
    return any(len(set(nodes)) < len(nodes) for nodes in inputs)


def main():
    parser = argparse.ArgumentParser(usage=__doc__)
    parser.add_argument("files", nargs="*")
    parser.add_argument("--tool", required=True)
    parser.add_argument("--scram", default="scram")
    parser.add_argument("--dot", default="dot")
    words = parser.parse_args()
    files = words.files or sorted(str(file) for file in Path("examples").glob("*.aadl"))
    trees = twice = wrong = 0
    with tempfile.TemporaryDirectory() as folder:
        place = str(Path(folder) / "tree.xml")
        for file in files:
            for root in roots(Path(file).read_text(encoding="utf-8", errors="surrogateescape")):
                for line in run(words.tool, "targets", root, file).stdout.split("\n"):
                    target, _, order = line.rpartition(" ")
                    if not order.isdigit():
                        continue
                    listed = run(words.tool, "cuts", root, target, file).stdout.split("\n")[:-2]
                    wanted = sorted(sorted(set_.split(" ", 1)[1].split("+")) for set_ in listed)
                    for gates in ["written", "merged"]:
                        trees += 1
                        faults = []
                        text = run(words.tool, "tree", root, target, file, "--format", "mef", "--gates", gates).stdout
                        Path(place).write_text(text, encoding="utf-8", errors="surrogateescape")
                        if run(words.scram, "--validate", place).returncode != 0:
                            faults.append("scram does not validate it")
                        tree = xml.fromstring(text)
                        names = {event.get("name"): event.find("label").text.strip() for event in tree.iter("define-basic-event")}
                        is_twice = counts_one_twice(tree)
                        twice += is_twice
                        for engine in [] if is_twice else ENGINES:
                            if sets_of_scram(words.scram, engine, place, names) != wanted:
                                faults.append(f"scram {engine} has other sets")
                        picture = run(words.tool, "tree", root, target, file, "--format", "dot", "--gates", gates).stdout
                        for form in ["-Tsvg", "-Tpdf"]:
                            drawn = subprocess.run([words.dot, form], input=picture.encode(), capture_output=True)
                            if drawn.returncode != 0 or drawn.stderr or not drawn.stdout:
                                faults.append(f"dot {form}: {drawn.stderr.decode().strip()}")
                        for fault in faults:
                            wrong += 1
                            print(f"WRONG: {file} {root} {target} --gates {gates}: {fault}")
    print(f"{trees} trees, {twice} with a counting gate that has one event twice, {wrong} wrong")
    return 1 if wrong else 0


sys.exit(main())
