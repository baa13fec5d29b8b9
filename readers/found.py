"""What a public reader finds in a folder of shapefiles, held against the listing that shapes_for_readers prints."""

import sys
from collections import namedtuple

# A main file with its index file. A box is its least x and y and its greatest x and y.
Layer = namedtuple("Layer", "shape_type box records")
# The points of a null shape are none.
Record = namedtuple("Record", "points box")


def box_of(points):
    """SHEETS 12.6."""
    if not points:
        return (0.0, 0.0, 0.0, 0.0)
    xs, ys = zip(*points)
    return (min(xs), min(ys), max(xs), max(ys))


def pairs(numbers):
    return tuple(zip(numbers[0::2], numbers[1::2]))


def doubles(words):
    """Exact: 64 is a power of 2 (SHEETS 12.8)."""
    return tuple(int(word) / 64 for word in words)


def listed(path):
    """The layers of a listing by name."""
    layers = {}
    with open(path) as lines:
        for line in lines:
            name, shape_type, count, *box = line.split()
            words = [next(lines).split() for _ in range(int(count))]
            points = [pairs(doubles(record)) if record != ["null"] else () for record in words]
            records = [Record(record, box_of(record)) for record in points]
            layers[name] = Layer(int(shape_type), doubles(box), records)
    return layers


def compare(reader, expected, found):
    """Says how much was read, or what differs, and then ends with status 1."""
    for name in sorted(expected.keys() | found.keys()):
        if expected.get(name) != found.get(name):
            sys.exit(f"{reader}: {name} differs\n  expected: {expected.get(name)}\n  found:    {found.get(name)}")
    records = [record for layer in found.values() for record in layer.records]
    points = sum(len(record.points) for record in records)
    nulls = sum(not record.points for record in records)
    print(f"{reader}: {2 * len(found)} files, {len(records)} records ({nulls} null shapes), {points} points, as expected")
