#!/usr/bin/env python3
"""Runs each command that README.md shows with its output, and compares.

    python3 readme.py --tool PROGRAM     in the folder of the repository

A command stands behind `    $ ./aadl_fta`, and its output in the lines below it. Where the two differ a line says `WRONG`, and the exit status is 1.
"""

import argparse
import os
import re
import subprocess
import sys
import tempfile


def blocks(text):
    """Each block of lines that begins with a command: the commands, and what stands below each."""
    for block in re.findall(r"(?:^    .*\n)+", text, re.M):
        lines = [line[4:] for line in block.splitlines()]
        if lines[0].startswith("$ ") and "| dot" not in lines[0]:
            yield lines


def main():
    parser = argparse.ArgumentParser(description=__doc__, formatter_class=argparse.RawDescriptionHelpFormatter)
    parser.add_argument("--tool", required=True)
    tool = os.path.abspath(parser.parse_args().tool)
    text = open("README.md").read()
    names = re.search(r"^    (M=\S+\s+T=\S+)$", text, re.M).group(1)
    ran = wrong = 0
    with tempfile.TemporaryDirectory() as folder:
        for lines in blocks(text):
            wanted = "\n".join(line for line in lines if not line.startswith("$ ")) + "\n"
            script = "\n".join(line[2:] for line in lines if line.startswith("$ "))
            script = script.replace("./aadl_fta", tool).replace("why.txt", f"{folder}/why.txt")
            found = subprocess.run(["bash", "-c", f"{names}\n{script}"], capture_output=True, text=True).stdout
            ran += 1
            if found != wanted:
                wrong += 1
                print(f"WRONG {lines[0]}\nwanted:\n{wanted}found:\n{found}")
    print(f"{ran} blocks, {wrong} wrong")
    return 1 if wrong else 0


if __name__ == "__main__":
    sys.exit(main())
