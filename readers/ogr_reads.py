#!/usr/bin/python3
"""ogr_reads.py FOLDER LISTING: what GDAL's ogrinfo prints of a folder, all its layers in one call."""

import re
import subprocess
import sys

from found import Layer, Record, box_of, compare, listed, pairs

SHAPE_TYPES = {"Point": 1, "Line String": 3}
# A layer's first lines. ogrinfo prints 6 decimals of the box and 15 digits of a point: all that a 64th has.
HEAD = re.compile(r"(.+)\nGeometry: (.+)\nFeature Count: (\d+)\nExtent: \((.+), (.+)\) - \((.+), (.+)\)\n")
FEATURE = re.compile(r"^OGRFeature\(.+\):(\d+)\n(?:  (POINT|LINESTRING) \((.+)\)\n)?$", re.MULTILINE)


def record(name, coordinates):
    """One without a geometry is a null shape. ogrinfo does not tell the box of a record."""
    points = pairs([float(word) for word in re.split("[ ,]", coordinates)]) if coordinates else ()
    assert len(points) == {"POINT": 1, "LINESTRING": 2, "": 0}[name]
    return Record(points, box_of(points))


def layer(text):
    head = HEAD.match(text)
    name, geometry, count, *box = head.groups()
    features = FEATURE.findall(text)
    assert [int(number) for number, _, _ in features] == list(range(int(count))), f"{name}: {count} features"
    records = [record(kind, coordinates) for _, kind, coordinates in features]
    return name, Layer(SHAPE_TYPES[geometry], tuple(float(word) for word in box), records)


def ogrinfo(*arguments):
    done = subprocess.run(["ogrinfo", *arguments], capture_output=True, text=True)
    if done.returncode != 0 or done.stderr:
        sys.exit(f"ogrinfo: status {done.returncode}\n{done.stderr}")
    return done.stdout


folder, listing = sys.argv[1:]
version = ogrinfo("--version").split(",")[0]
layers = ogrinfo("-ro", "-al", folder).split("\nLayer name: ")[1:]
compare(f"ogrinfo, {version}", listed(listing), dict(layer(text) for text in layers))
