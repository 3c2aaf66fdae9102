#!/usr/bin/env python3
"""columns.py shapes|pages FILE.wkbhex.gz OUT: real columns for the benchmark.

The file has a shape to a line: a register number, a tab, and the shape as little-endian two-dimensional well-known binary in hexadecimal.
OUT gets columns one after another: the number of values as a 64-bit number, then the values, 64-bit patterns, all little-endian. `shapes` makes
an x and a y column of each shape, cut at 2,048 values. `pages` joins shapes as a page does, as long as they are at most 256 and have together
at most 2,048 vertices.
"""
import struct
import sys

import wkb

MOST_VALUES = 2048
MOST_SHAPES = 256


def shapes(path):
    """The x and y patterns of each shape, in runs of at most 2,048."""
    for _, _, members in wkb.shapes(path):
        parts = [part for member in members for part in member]
        xs, ys = [x for part in parts for x in part[0]], [y for part in parts for y in part[1]]
        for i in range(0, len(xs), MOST_VALUES):
            yield xs[i : i + MOST_VALUES], ys[i : i + MOST_VALUES]


def pages(path):
    """The same, joined as pages hold them."""
    xs, ys, held = [], [], 0
    for x, y in shapes(path):
        if held == MOST_SHAPES or len(xs) + len(x) > MOST_VALUES:
            yield xs, ys
            xs, ys, held = [], [], 0
        xs, ys, held = xs + x, ys + y, held + 1
    if held > 0:
        yield xs, ys


def main():
    if len(sys.argv) != 4 or sys.argv[1] not in ("shapes", "pages"):
        sys.exit(__doc__)
    cut = {"shapes": shapes, "pages": pages}[sys.argv[1]]
    with open(sys.argv[3], "wb") as out:
        for both in cut(sys.argv[2]):
            for values in both:
                out.write(struct.pack(f"<{len(values) + 1}Q", len(values), *values))


main()
