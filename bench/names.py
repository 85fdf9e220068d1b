#!/usr/bin/env python3
"""Large texts of names: how long it takes to find a root in them, and what it has along its chain.

    names.py --tool PROGRAM    runs `aadl_fta check` over each, beside a text as long that has no names to find

Each run ends with the status 0 and the numbers of a root of one component, in which nothing happens: the files were read, all
names were put into tables, and the root, its chain and its members were tested.
"""

import argparse
import subprocess
import sys
import tempfile
from pathlib import Path

FILE_BYTES = 4_194_304


def filled(front, items, behind, item):
    """A file of so many items, with comments up to the greatest length of a file."""
    room = FILE_BYTES - len(front) - len(behind)
    body = [item(number) for number in range(items)]
    free = max(0, room // items - max(len(text) for text in body) - 4)
    return front + "".join(text + "--" + "x" * free + "\n" for text in body) + behind


def classifiers(folder):
    """Four files of the greatest length, with 12,500 classifiers each; the root is the last of the last file."""
    names = []
    for file in range(4):
        text = filled(f"package p{file} public\n", 12_500, f"end p{file};\n", lambda n: f"device d{n} end d{n};\n")
        names.append(f"p{file}.aadl")
        (folder / names[-1]).write_text(text)
    return ["p3::d12499", *names]


def comments(folder):
    """Four files of the greatest length with one classifier each."""
    names = []
    for file in range(4):
        text = filled(f"package p{file} public device d end d;\n", 12_500, f"end p{file};\n", lambda n: "\n")
        names.append(f"p{file}.aadl")
        (folder / names[-1]).write_text(text)
    return ["p3::d", *names]


def chain(folder):
    """4,000 types, each of which extends the one before and has one feature more."""
    types = ["system t0 features f0: in data port; end t0;\n"]
    types += [f"system t{n} extends t{n - 1} features f{n}: in data port; end t{n};\n" for n in range(1, 4000)]
    (folder / "chain.aadl").write_text("package p public\n" + "".join(types) + "end p;\n")
    return ["p::t3999", "chain.aadl"]


def plain(folder):
    """4,000 types with one feature each, of which none extends another."""
    types = [f"system t{n} features f{n}: in data port; end t{n};\n" for n in range(4000)]
    (folder / "plain.aadl").write_text("package p public\n" + "".join(types) + "end p;\n")
    return ["p::t3999", "plain.aadl"]


def main():
    parser = argparse.ArgumentParser(description="Runs aadl_fta check over large texts of names.")
    parser.add_argument("--tool", required=True, help="the program aadl_fta")
    tool = str(Path(parser.parse_args().tool).resolve())
    print("| text | status | s | MB |\n|---|---|---|---|")
    for make in (classifiers, comments, chain, plain):
        with tempfile.TemporaryDirectory() as folder:
            words = make(Path(folder))
            run = [sys.executable, "-c", MEASURE, tool, "check", *words]
            done = subprocess.run(run, cwd=folder, capture_output=True, text=True, check=True)
            status, kilobytes, seconds = done.stdout.split()
            print(f"| {make.__doc__.strip()} | {status} | {float(seconds):.2f} | {int(kilobytes) // 1024} |", flush=True)


MEASURE = """
import resource, subprocess, sys
done = subprocess.run(sys.argv[1:], stdout=subprocess.DEVNULL, stderr=subprocess.DEVNULL)
used = resource.getrusage(resource.RUSAGE_CHILDREN)
print(done.returncode, used.ru_maxrss, used.ru_utime + used.ru_stime)
"""

if __name__ == "__main__":
    sys.exit(main())
