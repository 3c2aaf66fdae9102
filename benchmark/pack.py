#!/usr/bin/env python3
"""pack.py [--small | --pages N] FILE DATA..: a boundary file for the benchmark, of the shapes in DATA (see wkb.py).

Pages are cut in the order of the shapes: a page ends where the next shape would make it more than 2,048 vertices or 256 shapes. A shape of more
vertices is left out, and so is one that no type of the format allows; how many is said.
MultiPolygons are kept as they are where that can be: on grid, each ring is turned the way the format asks (shells clockwise, holes the
other way). Where it cannot be (off grid, a turn of zero, too many vertices) each of its polygons becomes a Polygon of the same register, whose
rings may turn any way. So nothing of the data is left out but polygons that are too long by themselves, and no coordinate is changed.
--small: as many pages as keep the file under 40,960 bytes, and a page ends where it would have more than 512 vertices, so that there are some.
--pages N: the shapes over and over, until there are N pages. Each copy is moved by a whole number of cells a little larger than all shapes
together, a whole number of units wide and high; the cells lie around the first copy. What was on grid stays on it; in other data a coordinate
is rounded to what a float can hold there.
"""
import argparse
import itertools
import math
import struct
from collections import Counter

import wkb

MOST_VERTICES, MOST_SHAPES, MOST_PAGES = 2048, 256, 1024
SMALL_FILE, SMALL_PAGE = 40959, 512
MOST_ON_GRID = 2**24
WORD = 2**64


def floats(patterns):
    return struct.unpack(f"<{len(patterns)}d", struct.pack(f"<{len(patterns)}Q", *patterns))


def patterns(values):
    return struct.unpack(f"<{len(values)}Q", struct.pack(f"<{len(values)}d", *values))


# ---- shapes: a register, a kind and members, as in wkb.py, but that a part has floats


def read(paths):
    """All shapes of the files."""
    return [
        (register, kind, [[(floats(xs), floats(ys)) for xs, ys in member] for member in members])
        for path in paths
        for register, kind, members in wkb.shapes(path)
    ]


def moved(shape, dx, dy):
    """The shape elsewhere."""
    register, kind, members = shape
    return register, kind, [[([x + dx for x in xs], [y + dy for y in ys]) for xs, ys in member] for member in members]


def on_grid(values):
    return -MOST_ON_GRID <= min(values) and max(values) <= MOST_ON_GRID and all(map(float.is_integer, values))


def turn(xs, ys):
    """The turn of a ring on grid; negative is clockwise."""
    xs, ys = list(map(int, xs)), list(map(int, ys))
    return sum(a * d - c * b for a, b, c, d in zip(xs, ys, xs[1:], ys[1:]))


def turned(members):
    """The rings of a MultiPolygon, each the way that the format asks, or None where it cannot be one."""
    rings = []
    for member in members:
        for i, (xs, ys) in enumerate(member):
            way = turn(xs, ys) if on_grid(xs) and on_grid(ys) else 0
            if way == 0:
                return None
            rings.append((xs, ys) if (way < 0) == (i == 0) else (xs[::-1], ys[::-1]))
    return rings if size(rings) <= MOST_VERTICES else None


def size(parts):
    return sum(len(xs) for xs, _ in parts)


def written(shape):
    """What a shape becomes in the file: registers, types and parts."""
    register, kind, members = shape
    if kind != wkb.MULTIPOLYGON:
        return [(register, kind, [part for member in members for part in member])]
    rings = turned(members)
    return [(register, kind, rings)] if rings else [(register, wkb.POLYGON, member) for member in members]


def allowed(item):
    """Whether the format has room for it."""
    _, kind, parts = item
    if not 1 <= size(parts) <= MOST_VERTICES or not all(all(map(math.isfinite, xs)) and all(map(math.isfinite, ys)) for xs, ys in parts):
        return False
    if kind in (wkb.LINE, 5):
        return all(len(xs) >= 2 for xs, _ in parts)
    if kind in (wkb.POLYGON, wkb.MULTIPOLYGON):
        return all(len(xs) >= 4 and xs[0] == xs[-1] and ys[0] == ys[-1] for xs, ys in parts)
    return True


# ---- columns and blocks


def column(values):
    """The column of some patterns, at the width of least size, the smallest on a tie.

    The entries are put together as one number in binary, the last one first; bin(2**w + x)[3:] is x in w digits.
    """
    if not values:
        return b""
    steps = [(b - a) % WORD for a, b in zip(values, values[1:])]
    zigzags = [2 * d if 2 * d < WORD else 2 * (WORD - d) - 1 for d in steps]
    needing = Counter([(z + 1).bit_length() for z in zigzags])
    fulls, best, least = len(steps), 0, 64 * len(steps)
    for w in range(1, 65):
        fulls -= needing[w]
        if w * len(steps) + 64 * fulls < least:
            best, least = w, w * len(steps) + 64 * fulls
    above, marker, ones = 2**best, 2**best - 1, "1" * best
    entries = [bin(above + z)[3:] if z < marker else bin(WORD + v)[3:] + ones for z, v in zip(zigzags, values[1:])]
    bits = int("".join(reversed(entries)) or "0", 2)
    return (bits << 72 | values[0] << 8 | best).to_bytes((72 + least + 7) // 8, "little")


def block(kind, body):
    return struct.pack("<IH", len(body), kind) + body


def page(items):
    """The block of a page."""
    parts = [part for _, _, parts in items for part in parts]
    xs, ys = [x for part in parts for x in part[0]], [y for part in parts for y in part[1]]
    x, y = column(patterns(xs)), column(patterns(ys))
    body = struct.pack("<3H4d", len(items), len(xs), len(parts), min(xs), min(ys), max(xs), max(ys))
    body += struct.pack(f"<{len(items)}I", *(register for register, _, _ in items))
    body += bytes(kind for _, kind, _ in items)
    body += struct.pack(f"<{len(items)}H", *(len(parts) for _, _, parts in items))
    body += struct.pack(f"<{len(parts)}H", *(len(part[0]) for part in parts))
    return block(2, body + struct.pack("<II", len(x), len(y)) + x + y)


def cut(items, most=MOST_VERTICES):
    """Runs of items, a page each; an item of more vertices has a page to itself."""
    held, vertices = [], 0
    for item in items:
        n = size(item[2])
        if held and (len(held) == MOST_SHAPES or vertices + n > most):
            yield held
            held, vertices = [], 0
        held.append(item)
        vertices += n
    if held:
        yield held


# ---- files


def cell(shapes):
    """The width and the height of a cell that holds all shapes."""
    parts = [part for _, _, members in shapes for member in members for part in member]
    xs, ys = [x for part in parts for x in part[0]], [y for part in parts for y in part[1]]
    return math.ceil(max(xs) - min(xs)) + 1, math.ceil(max(ys) - min(ys)) + 1


def copies(shapes, pages):
    """Shapes over and over, so many that they fill the pages."""
    each = sum(1 for _ in cut(item for shape in shapes for item in written(shape)))
    side = math.isqrt(pages // max(each - 1, 1)) + 1
    width, height = cell(shapes)
    for i in range(side * side):
        dx, dy = (i % side - side // 2) * width, (i // side - side // 2) * height
        for shape in shapes:
            yield moved(shape, dx, dy)


def items_of(shapes, left):
    """What the shapes become, as far as the format has room for it; the others are put into a list."""
    for shape in shapes:
        for item in written(shape):
            if allowed(item):
                yield item
            else:
                left.append(item)


def file_of(pages, most_pages, most_bytes):
    """The file of the first pages, as many as may be and fit, and what it has: pages, shapes of each type, vertices."""
    out, types, vertices = [block(1, struct.pack("<H", 1))], Counter(), 0
    room = most_bytes - len(out[0]) - len(block(3, bytes(8)))
    for held in itertools.islice(pages, most_pages):
        made = page(held)
        room -= len(made)
        if room < 0:
            break
        out.append(made)
        types.update(kind for _, kind, _ in held)
        vertices += sum(size(parts) for _, _, parts in held)
    count = len(out) - 1
    out.append(block(3, struct.pack("<II", count, types.total())))
    return b"".join(out), count, types, vertices


def main():
    says = argparse.ArgumentParser(description=__doc__, formatter_class=argparse.RawDescriptionHelpFormatter)
    says.add_argument("--small", action="store_true")
    says.add_argument("--pages", type=int)
    says.add_argument("file")
    says.add_argument("data", nargs="+")
    asked = says.parse_args()

    shapes, left = read(asked.data), []
    items = items_of(copies(shapes, asked.pages) if asked.pages else shapes, left)
    pages = cut(items, SMALL_PAGE if asked.small else MOST_VERTICES)
    made, count, types, vertices = file_of(pages, asked.pages or MOST_PAGES, SMALL_FILE if asked.small else math.inf)
    with open(asked.file, "wb") as f:
        f.write(made)
    kinds = ", ".join(f"{n} of type {kind}" for kind, n in sorted(types.items()))
    print(f"{asked.file}: {len(made)} bytes, {count} pages, {types.total()} shapes ({kinds}), {vertices} vertices; {len(left)} left out")


main()
