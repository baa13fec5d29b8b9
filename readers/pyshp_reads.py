#!/usr/bin/python3
"""pyshp_reads.py FOLDER LISTING: reads the main files alone, from the first record to the last, then through their index files, from the
last to the first."""

import os
import sys

import shapefile

from found import Layer, Record, box_of, compare, listed


def record(shape):
    points = tuple(tuple(point) for point in shape.points)
    if shape.shapeType == shapefile.POLYLINE:
        assert list(shape.parts) == [0], "one part, from the first point on"
    # A Point and a null shape have no box of their own.
    return Record(points, tuple(shape.bbox) if shape.shapeType == shapefile.POLYLINE else box_of(points))


def header(path):
    """Of a main file or of an index file, whose headers are alike (SHEETS 12.7)."""
    with open(path, "rb") as file, shapefile.Reader(shp=file) as reader:
        assert reader.shpLength == os.path.getsize(path), f"{path}: the header gives another length"
        assert [*reader.zbox, *reader.mbox] == [0, 0, 0, 0], f"{path}: Z and M are not used"
        return reader.shapeType, tuple(reader.bbox)


def layer(base, reader, shapes):
    for shape in shapes:
        assert shape.shapeType in (reader.shapeType, shapefile.NULL), f"{base}: a shape of another type"
    return Layer(reader.shapeType, tuple(reader.bbox), [record(shape) for shape in shapes])


def read(base):
    with shapefile.Reader(shp=f"{base}.shp") as reader:
        assert reader.shx is None
        alone = layer(base, reader, reader.shapes())
        assert reader.shp.tell() == reader.shpLength, f"{base}: the records end elsewhere than the file"
    with shapefile.Reader(base) as reader:
        assert reader.shx is not None, f"{base}: no index file"
        backwards = [reader.shape(number) for number in reversed(range(len(reader)))]
        indexed = layer(base, reader, backwards[::-1])
    assert alone == indexed, f"{base}: through the index file other shapes are found"
    assert header(f"{base}.shp") == header(f"{base}.shx"), f"{base}: the two headers differ"
    return indexed


folder, listing = sys.argv[1:]
expected = listed(listing)
compare(f"pyshp {shapefile.__version__}", expected, {name: read(os.path.join(folder, name)) for name in expected})
