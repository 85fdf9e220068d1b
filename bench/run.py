#!/usr/bin/env python3
"""Runs aadl_fta over the shapes, and scram beside it where it is installed, and prints a table.

    run.py --tool PROGRAM [--scram PROGRAM] [--seconds N] [--megabytes N] [--random N] [--beside PROGRAM] [NAME..]

Without names all shapes are run; with `--random N` so many random networks, from seeds that are drawn. A run that takes more processor seconds or more memory than is allowed is ended.
"""

import argparse
import os
import random
import re
import resource
import shutil
import subprocess
import sys
import tempfile
from dataclasses import dataclass
from pathlib import Path

sys.dont_write_bytecode = True
import shapes


# How scram finds the sets: by zero-suppressed diagrams, by binary ones, or top down; the best that ends is shown.
MODES = ["zbdd", "bdd", "mocus"]


@dataclass
class Run:
    """What a run of a program took and gave."""

    status: int
    seconds: float  # of the processor, the program's own and the system's for it
    megabytes: float  # at the peak
    output: Path
    errors: str


def run(words, output, seconds, megabytes):
    """Runs a program with its output in a file, within the limits."""

    def limit():
        resource.setrlimit(resource.RLIMIT_CPU, (seconds, seconds + 1))
        resource.setrlimit(resource.RLIMIT_AS, (megabytes << 20, megabytes << 20))

    with output.open("wb") as out, tempfile.TemporaryFile() as errors:
        child = subprocess.Popen(words, stdin=subprocess.DEVNULL, stdout=out, stderr=errors, preexec_fn=limit)
        _, status, used = os.wait4(child.pid, 0)
        child.returncode = os.waitstatus_to_exitcode(status)
        errors.seek(0)
        text = errors.read().decode(errors="replace").strip()
    return Run(child.returncode, used.ru_utime + used.ru_stime, used.ru_maxrss / 1024, output, text)


def outcome(shape, done):
    """How many sets were listed, and whether that is what must come out."""
    if done.status == 2:
        code = done.errors.removeprefix("aadl_fta: ").split(" ")[0]
        return code, "right" if code == shape.refusal else "WRONG"
    if done.status != 0:
        return "-", "ended" if done.status < 0 else f"status {done.status}: {done.errors}"
    lines, last = 0, b""
    with done.output.open("rb") as listing:
        for last in listing:
            lines += 1
    sets = lines - 1
    whole = last == (b"more\n" if "--limit" in shape.options else b"end\n")
    return str(sets), "right" if whole and shape.refusal is None and shape.sets in (None, sets) else "WRONG"


def scram_sets(report, done):
    """How many sets scram's report counts."""
    if done.status != 0 or not report.exists():
        return "-"
    found = re.search(r'<sum-of-products[^>]*\bproducts="(\d+)"', report.read_text())
    return found.group(1) if found else "?"


def number(count):
    """A count as text, short where it is large."""
    return "?" if count is None else str(count) if count < 10**9 else f"{count:.1e}"


def row(shape, options, folder):
    """The cells of a shape."""
    shapes.write(shape, folder)
    gates, events = shape.counts()
    cells = [shape.name, str(gates), str(events), shape.refusal or number(shape.sets)]
    words = [options.tool, *shape.words(), folder / f"{shape.name}.aadl", *shape.options]
    done = run(words, folder / "listing", options.seconds, options.megabytes)
    cells += [f"{done.seconds:.2f}", f"{done.megabytes:.0f}", *outcome(shape, done)]
    if options.beside:
        other = run([options.beside, *words[1:]], folder / "other", options.seconds, options.megabytes)
        same = other.status == done.status and (folder / "other").read_bytes() == (folder / "listing").read_bytes()
        cells += [f"{other.seconds:.2f}", f"{other.megabytes:.0f}", "same" if same else "ended" if other.status < 0 else "OTHER"]
    if not options.scram:
        return cells + ["", "", ""]
    report = folder / "report.xml"
    report.unlink(missing_ok=True)
    best = None
    for mode in MODES:
        report.unlink(missing_ok=True)
        order = shape.order or max(events, 1)
        words = [options.scram, f"--{mode}", "--limit-order", str(order), "-o", report, folder / f"{shape.name}.xml"]
        done = run(words, folder / "scram_output", options.seconds, options.megabytes)
        if done.status == 0 and (best is None or done.seconds < best[0].seconds):
            best = done, mode, scram_sets(report, done)
    if best is None:
        return cells + ["-", "-", "-"]
    done, mode, sets = best
    return cells + [f"{done.seconds:.2f} {mode}", f"{done.megabytes:.0f}", sets]


def main():
    parser = argparse.ArgumentParser(description="Runs aadl_fta over the shapes, and scram beside it.")
    parser.add_argument("--tool", required=True, help="the program aadl_fta")
    parser.add_argument("--scram", default=shutil.which("scram"), help="the program scram; none where it is not installed")
    parser.add_argument("--seconds", type=int, default=60, help="processor seconds that a run may take")
    parser.add_argument("--megabytes", type=int, default=4096, help="memory that a run may take")
    parser.add_argument("--beside", help="another build of aadl_fta, which is run on the same and must write the same")
    parser.add_argument("--random", type=int, default=0, help="run so many random networks in place of the shapes")
    parser.add_argument("names", nargs="*", help="names of shapes; all without any")
    options = parser.parse_args()

    head = ["shape", "gates", "events", "sets", "s", "MB", "listed", ""]
    head += ["other s", "other MB", "other's bytes"] if options.beside else []
    head += ["scram s", "scram MB", "scram sets"]
    print("| " + " | ".join(head) + " |")
    print("|---" * len(head) + "|", flush=True)
    with tempfile.TemporaryDirectory() as folder:
        chosen = [shapes.drawn(random.randrange(10**6)) for _ in range(options.random)] or shapes.all_shapes()
        for shape in chosen:
            if not options.names or shape.name in options.names:
                print("| " + " | ".join(row(shape, options, Path(folder))) + " |", flush=True)


if __name__ == "__main__":
    main()
