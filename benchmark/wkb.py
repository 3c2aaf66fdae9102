"""Shapes as they stand in a file of the folder data: a line to a shape, a register number, a tab, and the shape as little-endian
two-dimensional well-known binary in hexadecimal.

A shape is its register, its kind (a number of 1 to 6, the same as the boundary file's types) and its members, for a kind below 4 one. A member is
a list of parts: one, or the rings of a polygon. A part is two lists of 64-bit patterns, x and y.
"""
import gzip
import struct
import sys

POINT, LINE, POLYGON, MULTIPOLYGON = 1, 2, 3, 6
MULTI = (4, 5, 6)


def number(wkb, at):
    return struct.unpack_from("<I", wkb, at)[0]


def part(wkb, at, count):
    """The part of so many vertices from a place on, and the place after it."""
    words = struct.unpack_from(f"<{2 * count}Q", wkb, at)
    return (list(words[0::2]), list(words[1::2])), at + 16 * count


def geometry(wkb, at):
    """The kind and the members of the geometry at a place, and the place after it."""
    if wkb[at] != 1:
        sys.exit("wkb.py: a shape that is not little-endian")
    kind, at = number(wkb, at + 1), at + 5
    if kind == POINT:
        only, at = part(wkb, at, 1)
        return kind, [[only]], at
    count, at = number(wkb, at), at + 4
    if kind == LINE:
        only, at = part(wkb, at, count)
        return kind, [[only]], at
    found = []
    for _ in range(count):
        if kind == POLYGON:
            ring, at = part(wkb, at + 4, number(wkb, at))
            found.append(ring)
        elif kind in MULTI:
            _, members, at = geometry(wkb, at)
            found += members
        else:
            sys.exit(f"wkb.py: a shape of type {kind}")
    return kind, [found] if kind == POLYGON else found, at


def shapes(path):
    """The register, the kind and the members of each shape of a file."""
    with gzip.open(path, "rt", encoding="ascii") as f:
        for line in f:
            register, wkb = line.split("\t")
            kind, members, _ = geometry(bytes.fromhex(wkb), 0)
            yield int(register), kind, members
