#!/usr/bin/env python3
"""Pages of long listings: how long the first sets, some in the middle and the last ones take, and a whole long listing; and the
first pages of listings that are never found whole.

    pages.py --tool PROGRAM [--seconds N] [--megabytes N]    runs `aadl_fta cuts` over each, and prints a table

The sets of each model are known from its shape, with their order, so each run is also a test: where another byte was printed,
the table says `WRONG`. The sets of the large grids are known up to a few events: they are tried here one by one.
"""

import argparse
import hashlib
import sys
import tempfile
from dataclasses import dataclass
from itertools import combinations, islice, product
from math import comb, prod
from pathlib import Path

sys.dont_write_bytecode = True
import shapes
from run import number, run


@dataclass
class Choice:
    """One event of each of some groups, in the order of the groups."""

    name: str
    sizes: list  # how many events each group has

    def events(self):
        return [[f"{letter(group)}{n}" for n in range(1, size + 1)] for group, size in enumerate(self.sizes)]

    def condition(self):
        return shapes.both(*(shapes.either(*group) for group in self.events()))

    def count(self):
        return prod(self.sizes)

    def sets(self):
        return product(*self.events())

    def at(self, number):
        """The set of a number, from 0 on."""
        names = []
        for group in reversed(self.events()):
            names.append(group[number % len(group)])
            number //= len(group)
        return names[::-1]

    def declared(self):
        return [name for group in self.events() for name in group]


@dataclass
class Pairs(Choice):
    """One event of each of some pairs, which are called a and b."""

    def events(self):
        return [[f"a{n}", f"b{n}"] for n in range(1, len(self.sizes) + 1)]


@dataclass
class Counted:
    """So many of some events."""

    name: str
    least: int
    events: int

    def declared(self):
        return [f"e{n}" for n in range(1, self.events + 1)]

    def condition(self):
        return f"{self.least} ormore ({', '.join(self.declared())})"

    def count(self):
        return comb(self.events, self.least)

    def sets(self):
        return combinations(self.declared(), self.least)

    def at(self, number):
        """The set of a number, from 0 on: how many sets begin with each event is known."""
        names, next_event, left = [], 0, self.least
        while left:
            begun = comb(self.events - next_event - 1, left - 1)
            if number < begun:
                names.append(f"e{next_event + 1}")
                left -= 1
            else:
                number -= begun
            next_event += 1
        return names


@dataclass
class Grid:
    """Ways through a grid, of which all must fail: `grid` of the shapes."""

    name: str
    side: int
    order: int  # up to how many events its sets are known

    def shape(self):
        return shapes.grid(self.side, self.side)

    def known(self):
        """The minimal sets of at most so many events that meet each way from the first place to the last, in listing order.

        A place is numbered as the tool numbers its event: row by row. A set grows by the places of a way that it does not meet, and
        none is left out: a minimal one meets that way too.
        """
        found, waiting = set(), {frozenset()}
        while waiting:
            chosen = waiting.pop()
            way = self.way_around(chosen)
            if way is None:
                found.add(chosen)
            elif len(chosen) < self.order:
                waiting |= {chosen | {place} for place in way}
        minimal = [each for each in found if all(self.way_around(each - {place}) for place in each)]
        return sorted((sorted(each) for each in minimal), key=lambda each: (len(each), each))

    def way_around(self, chosen):
        """The places of a way from the first place to the last that meets none of these; none where there is none."""
        side, before = self.side, {}
        for place in range(side * side):
            row, column = divmod(place, side)
            if place in chosen:
                continue
            if place == 0:
                before[place] = -1
            elif column > 0 and place - 1 in before:
                before[place] = place - 1
            elif row > 0 and place - side in before:
                before[place] = place - side
        place, way = side * side - 1, []
        if place not in before:
            return None
        while place >= 0:
            way.append(place)
            place = before[place]
        return way


def grids():
    """Each grid with the pages that are asked of it: the number of the first set, and how many."""
    for side, order in (10, 4), (16, 3):
        grid = Grid(f"a grid of {side} rows and columns", side, order)
        known = len(grid.known())
        yield grid, [(0, 0), (0, 1), (0, known - 1), (known // 2, known // 4)]


def grid_line(grid, numbers):
    """The line of a set of a grid."""
    return f"{len(numbers)} {grid_text(grid, numbers)}\n".encode()


def grid_text(grid, numbers):
    return "+".join(f"root.e{number // grid.side}x{number % grid.side}/source:e" for number in numbers)


def grid_rows(options, tool, folder):
    """Runs the pages of the grids, and prints their rows; whether all were right. Some of the sets that are known follow each page."""
    all_right = True
    for grid, asked in grids():
        shape, known = grid.shape(), grid.known()
        shapes.write(shape, folder)
        for first, limit in asked:
            words = [tool, *shape.words(), folder / f"{shape.name}.aadl", "--limit", str(limit)]
            words += ["--after", grid_text(grid, known[first - 1])] if first > 0 else []
            done = run(words, folder / "listing", options.seconds, options.megabytes)
            lines = [grid_line(grid, numbers) for numbers in known[first : first + limit]] + [b"more\n"]
            right = done.status == 0 and digest(pieces_of(done.output)) == digest(lines)
            all_right = all_right and right
            about = f"{limit} behind the first {first}" if first else f"the first {limit}"
            print_row(grid.name, "?", about, done, right)
    return all_right


def print_row(name, count, about, done, right):
    lines = sum(piece.count(b"\n") for piece in pieces_of(done.output))
    end = "" if right else f" WRONG: status {done.status} {done.errors}"
    cells = [name, count, about, lines, f"{done.seconds:.2f}", f"{done.megabytes:.0f}"]
    print("| " + " | ".join(map(str, cells)) + " |" + end, flush=True)


def letter(number):
    return chr(ord("a") + number)


def text_of(names):
    return "+".join(f"root/{name}" for name in names)


def line(names):
    return f"{len(names)} {text_of(names)}\n".encode()


def page(model, first, limit):
    """What is to be printed of the sets from a number on, so many at most; all where there is no limit."""
    count = model.count()
    last = count if limit is None else min(first + limit, count)
    sets = model.sets() if first == 0 and limit is None else map(model.at, range(first, last))
    yield from map(line, sets)
    yield b"more\n" if last < count else b"end\n"


def digest(pieces):
    whole = hashlib.sha256()
    for piece in pieces:
        whole.update(piece)
    return whole.hexdigest()


def pieces_of(file):
    with file.open("rb") as listing:
        while piece := listing.read(1 << 20):
            yield piece


def pages():
    """Each model with the pages that are asked of it: what it is, the number of the first set, and how many."""
    groups = Choice("one of each of 20, 20, 25, 10 and 10 events", [20, 20, 25, 10, 10])
    counted = Counted("5 of 43 events", 5, 43)
    pairs = Pairs("one of each of 40 pairs of events", [2] * 40)
    for model in groups, counted:
        count = model.count()
        yield model, [
            ("all", 0, None),
            ("the first 1,000", 0, 1000),
            ("1,000 in the middle", count // 2, 1000),
            ("the last 1,000", count - 1000, 1000),
            ("the last one", count - 1, None),
        ]
    yield pairs, [
        ("the first three", 0, 3),
        ("the first 1,000", 0, 1000),
        ("1,000 in the middle", 1 << 39, 1000),
        ("the last three", (1 << 40) - 3, None),
    ]


def main():
    parser = argparse.ArgumentParser(description=__doc__.splitlines()[0])
    parser.add_argument("--tool", required=True, help="the program aadl_fta")
    parser.add_argument("--seconds", type=int, default=60, help="processor seconds that a run may take")
    parser.add_argument("--megabytes", type=int, default=4096, help="memory that a run may take")
    options = parser.parse_args()
    tool = Path(options.tool).resolve()

    print("| model | sets | page | lines | s | MB |\n|---|---|---|---|---|---|", flush=True)
    wrong = False
    with tempfile.TemporaryDirectory() as name:
        folder = Path(name)
        for model, asked in pages():
            condition = model.condition()
            machine = shapes.Machine(model.declared(), [shapes.INITIAL, "bad"], shapes.from_ok([("bad", condition)]))
            file = folder / "m.aadl"
            file.write_text(shapes.aadl_text(machine))
            for about, first, limit in asked:
                words = [tool, "cuts", "p::s", "root/state:bad", file]
                words += ["--limit", str(limit)] if limit is not None else []
                words += ["--after", text_of(model.at(first - 1))] if first > 0 else []
                done = run(words, folder / "listing", options.seconds, options.megabytes)
                right = done.status == 0 and digest(pieces_of(done.output)) == digest(page(model, first, limit))
                wrong = wrong or not right
                print_row(model.name, number(model.count()), about, done, right)
        wrong = not grid_rows(options, tool, folder) or wrong
    sys.exit(1 if wrong else 0)


if __name__ == "__main__":
    main()
