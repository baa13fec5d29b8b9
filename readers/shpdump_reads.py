#!/usr/bin/python3
"""shpdump_reads.py FOLDER LISTING: what shapelib's shpdump prints of each pair of files, which it reads through the index file."""

import os
import re
import subprocess
import sys

from found import Layer, Record, compare, listed

SHAPE_TYPES = {"Point": 1, "Arc": 3}
HEAD = re.compile(r"Shapefile Type: (\w+)   # of Shapes: (\d+)\n")
SHAPE = re.compile(r"(\d+) \((\w+)\)  nVertices=(\d+), nParts=(\d+)\n")
# x and y, then z, and m in the box of a file, which are 0.
NUMBERS = re.compile(r"\(([\d.]+),([\d.]+)(?:, ?0)+\)")


def corners(text):
    """The numbers in parentheses: the two corners of a box, and then points."""
    points = tuple((float(x), float(y)) for x, y in NUMBERS.findall(text))
    return points[0] + points[1], points[2:]


def record(number, text, layer_type):
    told, name, vertices, parts = SHAPE.match(text).groups()
    box, points = corners(text[text.index("\n"):])
    assert int(told) == number and int(vertices) == len(points)
    assert name == "NullShape" and not points or name == layer_type and int(parts) == (name == "Arc")
    return Record(points, box)


def read(base):
    done = subprocess.run(["shpdump", "-precision", "15", base], capture_output=True, text=True)
    assert done.returncode == 0 and not done.stderr, f"{base}: status {done.returncode} {done.stderr}"
    head, *shapes = done.stdout.split("\nShape:")
    name, count = HEAD.match(head).groups()
    assert int(count) == len(shapes), f"{base}: {count} shapes"
    box, _ = corners(head)
    return Layer(SHAPE_TYPES[name], box, [record(number, text, name) for number, text in enumerate(shapes)])


folder, listing = sys.argv[1:]
expected = listed(listing)
compare("shpdump", expected, {name: read(os.path.join(folder, name)) for name in expected})
