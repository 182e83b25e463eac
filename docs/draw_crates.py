#!/usr/bin/env python3
"""Draws docs/crates.svg from crates.txt: the crates by level, each above those that it stands on.

A crate's level is one more than the greatest of those below it. A line leads from a crate down to each one that it uses, but not where
that one is also below another crate that it uses. A level that is too wide gets two rows, with the crates that are used least in the
lower one. Places are found as in any layered drawing: a line that passes a row takes a place there, the order within each row is that
with the fewest crossings that some sweeps find, and then each place moves to the middle of its neighbours, as far as the order allows.
Nothing is drawn at random, so one crates.txt has one picture.
Usage: docs/draw_crates.py [--check]   (--check compares the picture that is stored, and writes nothing)
"""
import os
import sys

ROOT = os.path.dirname(os.path.dirname(os.path.abspath(__file__)))
PICTURE = os.path.join(ROOT, "docs", "crates.svg")
WIDTH, LEFT, RIGHT = 920, 70, 904
BAND, BOX, TOP = 66, 28, 44
LETTER, PADDING, GAP, LANE = 6.7, 8, 10, 2
WIDEST = 640
SWEEPS = 40
COLOURS = ["#4f81b0", "#b0743a", "#5f9468", "#8d6aa8"]


def read_crates(path=os.path.join(ROOT, "crates.txt")):
    """The crates of this repository that each crate names, by its name, in the order of the file."""
    named = {}
    with open(path, encoding="utf-8") as file:
        for line in file:
            head, colon, tail = line.split("#")[0].partition(":")
            if colon:
                named[head.split()[0]] = tail.split()
    return {name: [low for low in lows if low in named] for name, lows in named.items()}


def levels_of(crates):
    """The level of each crate, from 1."""
    levels = {}

    def level(name):
        if name not in levels:
            levels[name] = 1 + max((level(low) for low in crates[name]), default=0)
        return levels[name]

    for name in crates:
        level(name)
    return levels


def nearest(crates):
    """The crates that each crate uses, without those that are below another one of them."""
    below = {}

    def all_below(name):
        if name not in below:
            below[name] = set(crates[name]).union(*(all_below(low) for low in crates[name]))
        return below[name]

    return {
        name: [low for low in dict.fromkeys(lows) if not any(low in all_below(other) for other in lows if other != low)]
        for name, lows in crates.items()
    }


def width_of(place):
    return len(place) * LETTER + 2 * PADDING if isinstance(place, str) else LANE


def rows_of(crates, uses):
    """The rows from the bottom up, each with its level: one for each level, or two where it is too wide."""
    levels = levels_of(crates)
    users = {name: sum(name in lows for lows in uses.values()) for name in crates}
    rows = []
    for level in range(1, max(levels.values()) + 1):
        names = [name for name in crates if levels[name] == level]
        if sum(width_of(name) + GAP for name in names) <= WIDEST:
            rows.append((level, names))
            continue
        names.sort(key=users.get)
        half = (len(names) + 1) // 2
        rows += [(level, names[:half]), (level, names[half:])]
    return rows


class Layers:
    """The places of each row in order: crates, and the lines that pass, each as (upper, lower, row)."""

    def __init__(self, crates):
        uses = nearest(crates)
        rows = rows_of(crates, uses)
        self.levels = [level for level, _ in rows]
        self.rows = [names for _, names in rows]
        self.row_of = {name: index for index, row in enumerate(self.rows) for name in row}
        self.paths = [self.path(high, low) for high in crates for low in uses[high]]
        self.down, self.up = {}, {}
        for path in self.paths:
            for place, under in zip(path, path[1:]):
                self.down.setdefault(place, []).append(under)
                self.up.setdefault(under, []).append(place)

    def path(self, high, low):
        """The places from a crate down to one that it uses; a passing line gets a place in each row between."""
        passed = [(high, low, row) for row in range(self.row_of[high] - 1, self.row_of[low], -1)]
        for place in passed:
            self.rows[place[2]].append(place)
        return [high, *passed, low]

    def crossings(self):
        total = 0
        for lower, upper in zip(self.rows, self.rows[1:]):
            at = {place: index for index, place in enumerate(lower)}
            ends = [at[under] for place in upper for under in sorted(self.down.get(place, []), key=at.get)]
            total += sum(a > b for index, a in enumerate(ends) for b in ends[index + 1 :])
        return total

    def sweep(self, rows, near, step):
        """Puts the places of each row in the order of the mean places of their neighbours in the row before."""
        for row in rows:
            at = {place: index for index, place in enumerate(self.rows[row - step])}
            mean = {}
            for index, place in enumerate(self.rows[row]):
                ends = [at[other] for other in near.get(place, [])]
                mean[place] = sum(ends) / len(ends) if ends else index
            self.rows[row].sort(key=mean.get)

    def order(self):
        best, rows = None, None
        for _ in range(SWEEPS):
            self.sweep(range(1, len(self.rows)), self.down, 1)
            self.sweep(range(len(self.rows) - 2, -1, -1), self.up, -1)
            found = self.crossings()
            if best is None or found < best:
                best, rows = found, [list(row) for row in self.rows]
        self.rows = rows


def nearest_rising(wanted):
    """The rising numbers that are nearest to the wanted ones: runs that would fall are replaced by their mean."""
    runs = []
    for value in wanted:
        runs.append([value, 1])
        while len(runs) > 1 and runs[-2][0] > runs[-1][0]:
            value, count = runs.pop()
            before, others = runs.pop()
            runs.append([(before * others + value * count) / (others + count), others + count])
    return [value for value, count in runs for _ in range(count)]


def spread(row, wanted):
    """The middles of the places of a row in order, as near to the wanted ones as their widths allow."""
    offsets, end = [], 0.0
    for place in row:
        offsets.append(end + width_of(place) / 2)
        end += width_of(place) + GAP
    room = RIGHT - LEFT - (end - GAP)
    if room < 0:
        sys.exit(f"the level of {row[0]} is wider than the picture: make WIDTH greater")
    rising = nearest_rising([wanted[place] - offset for place, offset in zip(row, offsets)])
    return {place: min(max(value, LEFT), LEFT + room) + offset for place, value, offset in zip(row, rising, offsets)}


def mean_of(place, near, middle):
    """The mean middle of the neighbours of a place; two places of one passing line count most, so that it runs straight."""
    weights = [8 if not isinstance(place, str) and not isinstance(other, str) else 1 for other in near]
    if not near:
        return middle[place]
    return sum(weight * middle[other] for weight, other in zip(weights, near)) / sum(weights)


def place_all(layers):
    middle = {}
    for row in layers.rows:
        middle.update(spread(row, {place: (LEFT + RIGHT) / 2 for place in row}))
    for turn in range(10 * SWEEPS):
        for row in layers.rows if turn % 2 else reversed(layers.rows):
            wanted = {}
            for place in row:
                wanted[place] = mean_of(place, layers.up.get(place, []) + layers.down.get(place, []), middle)
            middle.update(spread(row, wanted))
    return middle


def is_test(name):
    return name.endswith("_tests")


def height_of(layers, row):
    """The middle of a row, from the top."""
    return TOP + (len(layers.rows) - 1 - row) * BAND + BAND / 2


def line_of(path, middle, layers):
    """The curve along the places of a path, upright at each of them."""
    points = []
    for place in path:
        y = height_of(layers, layers.row_of[place] if isinstance(place, str) else place[2])
        half = BOX / 2
        points.append((middle[place], y - half, y + half))
    points[0] = (points[0][0], points[0][2], points[0][2])
    points[-1] = (points[-1][0], points[-1][1], points[-1][1])
    drawn = f"M{points[0][0]:.1f} {points[0][2]:.1f}"
    for (x, _, bottom), (to, top, low) in zip(points, points[1:]):
        half = (bottom + top) / 2
        drawn += f" C{x:.1f} {half:.1f} {to:.1f} {half:.1f} {to:.1f} {top:.1f}"
        if low > top:
            drawn += f" V{low:.1f}"
    return drawn


STYLE = """  <style>
    text { font-family: "DejaVu Sans", Verdana, Helvetica, Arial, sans-serif; }
    .title { font-size: 15px; font-weight: bold; fill: #1d2b3a; }
    .note { font-size: 11px; fill: #5b6b7b; }
    .level { font-size: 11px; fill: #5b6b7b; }
    .name { font-size: 11px; fill: #14202c; text-anchor: middle; }
    .line { fill: none; stroke-width: 1.3; }
    .crate { fill: #ffffff; stroke: #2f6690; stroke-width: 1.4; }
    .test { fill: #ffffff; stroke: #8a99a8; stroke-width: 1.2; stroke-dasharray: 4 3; }
    .top { fill: #2f6690; stroke: #2f6690; }
    .name.top { fill: #ffffff; stroke: none; font-weight: bold; }
  </style>
"""


def colour_of(name, layers):
    """The colour of the lines that come from a crate, by its place in its row."""
    places = [place for place in layers.rows[layers.row_of[name]] if isinstance(place, str)]
    return COLOURS[places.index(name) % len(COLOURS)]


def box_of(name, x, y, is_top):
    width = width_of(name)
    kind = "crate top" if is_top else "test" if is_test(name) else "crate"
    text = "name top" if is_top else "name"
    return (
        f'  <rect class="{kind}" x="{x - width / 2:.1f}" y="{y - BOX / 2:.1f}" width="{width:.1f}" height="{BOX}" rx="5"/>\n'
        f'  <text class="{text}" x="{x:.1f}" y="{y + 4:.1f}">{name}</text>\n'
    )


def picture(crates):
    layers = Layers(crates)
    layers.order()
    middle = place_all(layers)
    height = TOP + len(layers.rows) * BAND + 30
    out = f'<svg xmlns="http://www.w3.org/2000/svg" viewBox="0 0 {WIDTH} {height}" width="{WIDTH}" height="{height}" role="img">\n'
    out += "  <title>The crates by level</title>\n" + STYLE
    out += f'  <rect width="{WIDTH}" height="{height}" fill="#ffffff"/>\n'
    out += '  <text class="title" x="16" y="27">The crates by level</text>\n'
    for row, level in enumerate(layers.levels):
        y = height_of(layers, row)
        if level % 2:
            out += f'  <rect x="8" y="{y - BAND / 2}" width="{WIDTH - 16}" height="{BAND}" fill="#f1f5f9"/>\n'
        if level not in layers.levels[row + 1 :]:
            out += f'  <text class="level" x="16" y="{y + 4}">level {level}</text>\n'
    for path in layers.paths:
        out += f'  <path class="line" stroke="{colour_of(path[0], layers)}" d="{line_of(path, middle, layers)}"/>\n'
    for row, places in enumerate(layers.rows):
        for place in places:
            if isinstance(place, str):
                out += box_of(place, middle[place], height_of(layers, row), place == "bcdb")
    note = "A line leads down to a crate that is used; it is left out where another line leads there by way of a third. Dashed: tests and measurements alone."
    out += f'  <text class="note" x="16" y="{height - 11}">{note}</text>\n</svg>\n'
    return out


def main():
    drawn = picture(read_crates())
    if "--check" in sys.argv[1:]:
        with open(PICTURE, encoding="utf-8") as file:
            sys.exit(0 if file.read() == drawn else "docs/crates.svg is not what docs/draw_crates.py draws")
    with open(PICTURE, "w", encoding="utf-8") as file:
        file.write(drawn)


if __name__ == "__main__":
    main()
