#!/usr/bin/env python3
"""What a program takes for large Galileo texts: processor seconds and memory.

    python3 galileo.py PROGRAM [WORD..]      runs PROGRAM WORD.. FILE for each text, three times
"""
import os
import resource
import subprocess
import sys
import tempfile

LIMIT = 4194304
TOP = ['toplevel "g0";\n']


def events(limit):
    """Basic events, up to so many bytes."""
    lines = []
    size = 0
    while size < limit:
        line = '"event%d" lambda=1.0e-5;\n' % len(lines)
        lines.append(line)
        size += len(line)
    return lines[:-1] + ['toplevel "event0";\n']


def chain(count):
    """Gates of which each has the next as an input."""
    return TOP + ['"g%d" or "g%d" "a";\n' % (n, n + 1) for n in range(count)] + ['"g%d" or "a";\n' % count, '"a" prob=1;\n']


def ring(count):
    """The same, and the last has the first."""
    return TOP + ['"g%d" or "g%d" "a";\n' % (n, n + 1) for n in range(count)] + ['"g%d" or "g0";\n' % count, '"a" prob=1;\n']


def binary(count):
    """A tree of gates of two inputs."""
    lines = []
    for n in range(count):
        names = ['"%s%d"' % ("g" if k < count else "e", k) for k in (2 * n + 1, 2 * n + 2)]
        lines.append('"g%d" and %s %s;\n' % (n, *names))
    return TOP + lines + ['"e%d" prob=0.5;\n' % k for k in range(count, 2 * count + 1)]


def shared(count, inputs):
    """Gates of which each has so many of the next ones as inputs."""
    lines = []
    for n in range(count):
        names = ['"g%d"' % min(n + 1 + k, count - 1) for k in range(inputs)] if n < count - 1 else ['"a"']
        lines.append('"g%d" 2of%d %s;\n' % (n, len(names), " ".join(names)))
    return TOP + lines + ['"a" prob=1;\n']


def fill(make):
    """As many gates as fit into a text."""
    low, high = 1, LIMIT // 8
    while low < high:
        middle = (low + high + 1) // 2
        if sum(map(len, make(middle))) <= LIMIT:
            low = middle
        else:
            high = middle - 1
    return make(low)


CASES = {
    "4 MB of events": lambda: events(LIMIT - 100),
    "a chain of 16,384 gates": lambda: chain(16384),
    "a binary tree of 16,384 gates": lambda: binary(16384),
    "16,384 gates of 16 inputs": lambda: shared(16384, 16),
    "4 MB of a chain": lambda: fill(chain),
    "4 MB of a ring": lambda: fill(ring),
    "4 MB of a binary tree": lambda: fill(binary),
    "one gate of 1,000,000 inputs": lambda: ['toplevel "T";"T" and' + ' "a"' * 1000000 + ';"a" prob=1;'],
}


def seconds(words):
    before = resource.getrusage(resource.RUSAGE_CHILDREN)
    subprocess.run(words, stdout=subprocess.DEVNULL, stderr=subprocess.DEVNULL)
    after = resource.getrusage(resource.RUSAGE_CHILDREN)
    return after.ru_utime + after.ru_stime - before.ru_utime - before.ru_stime


def main(words):
    print("| text | lines | bytes | seconds |")
    print("|---|---|---|---|")
    for name, make in CASES.items():
        text = "".join(make())
        with tempfile.NamedTemporaryFile("w", suffix=".dft", delete=False) as file:
            file.write(text)
        least = min(seconds(words + [file.name]) for _ in range(3))
        os.unlink(file.name)
        print("| %s | %d | %d | %.3f |" % (name, text.count("\n"), len(text), least), flush=True)


main(sys.argv[1:])
