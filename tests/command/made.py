"""Boundary files made by hand for the tests of the command, and read back, with nothing but docs/FORMAT.md.

A shape is (register, type, parts), a part a list of (x, y). Columns are written at width 0, where every value stands in
full: a reader takes every width. Where a test is about the columns it makes them itself, with `fields` and `laid`.
"""
import struct

EMPTY, POINT, LINE, POLYGON, MULTIPOINT, MULTILINE, MULTIPOLYGON = range(7)
NAMES = ("empty", "Point", "LineString", "Polygon", "MultiPoint", "MultiLineString", "MultiPolygon")


def pattern(value):
    """The 64 bits of a float."""
    return struct.unpack("<Q", struct.pack("<d", value))[0]


def value(bits):
    """The float of 64 bits."""
    return struct.unpack("<d", struct.pack("<Q", bits))[0]


def block(kind, body):
    return struct.pack("<IH", len(body), kind) + body


def column(values):
    return b"\0" + struct.pack(f"<{len(values)}d", *values) if values else b""


def fields(patterns, width):
    """A column at a width: for each value its fields, each (number, bits). The width goes with the first value."""
    found, marker, last = [], 2**width - 1, None
    for bits in patterns:
        if last is None:
            found.append([(width, 8), (bits, 64)])
        else:
            step = (bits - last + 2**63) % 2**64 - 2**63
            z = 2 * step if step >= 0 else -2 * step - 1
            found.append([(z, width)] if z < marker else [(marker, width), (bits, 64)])
        last = bits
    return found


def laid(fields_of_values):
    """The bytes of a column's fields, with zero bits to the end of the last byte."""
    number = at = 0
    for field, bits in (each for of_value in fields_of_values for each in of_value):
        number |= field << at
        at += bits
    return number.to_bytes((at + 7) // 8, "little")


def box(vertices):
    """Least x, least y, greatest x, greatest y; of equal values the first met."""
    xs, ys = [x for x, _ in vertices], [y for _, y in vertices]
    return min(xs), min(ys), max(xs), max(ys)


def page(shapes, shown=None, types=None, columns=None):
    """A page's block. `shown` is another box than that of the vertices, `types` other types, `columns` other bytes of
    the x and the y column."""
    parts = [part for _, _, parts in shapes for part in parts]
    vertices = [vertex for part in parts for vertex in part]
    body = struct.pack("<3H", len(shapes), len(vertices), len(parts))
    body += struct.pack("<4d", *(shown or box(vertices))) if vertices else bytes(32)
    body += b"".join(struct.pack("<I", register) for register, _, _ in shapes)
    body += bytes(types or [kind for _, kind, _ in shapes])
    body += b"".join(struct.pack("<H", len(parts)) for _, _, parts in shapes)
    body += b"".join(struct.pack("<H", len(part)) for part in parts)
    x, y = columns or (column([x for x, _ in vertices]), column([y for _, y in vertices]))
    return block(2, body + struct.pack("<II", len(x), len(y)) + x + y)


def framed(pages, shapes):
    """A file of page blocks, with so many shapes in all."""
    return block(1, struct.pack("<H", 1)) + b"".join(pages) + block(3, struct.pack("<II", len(pages), shapes))


def file_of(*pages):
    """A file of pages, each a list of shapes."""
    return framed([page(shapes) for shapes in pages], sum(map(len, pages)))


def seats(first, shapes):
    """Of each vertex of a page, in order: the place of its shape, where `first` is that of the page's first one, the
    shape's register, the part, and the vertex in the part."""
    return [(first + i, register, part, vertex) for i, (register, _, parts) in enumerate(shapes)
            for part, vertices in enumerate(parts) for vertex in range(len(vertices))]


def turn(ring):
    """Negative is clockwise."""
    return sum(int(a) * int(d) - int(c) * int(b) for (a, b), (c, d) in zip(ring, ring[1:]))


def polygons(kind, parts):
    """The rings of a Polygon or a MultiPolygon, in a list for each polygon."""
    found = []
    for i, ring in enumerate(parts):
        if i == 0 or (kind == MULTIPOLYGON and turn(ring) < 0):
            found.append([])
        found[-1].append(ring)
    return found


def seats_of(data, number):
    """The seats of the vertices of a page, read from a file whose tables are sound up to that page."""
    at, first = 8, 0
    for _ in range(number):
        first += struct.unpack_from("<H", data, at + 6)[0]
        at += 6 + struct.unpack_from("<I", data, at)[0]
    g, _, p = struct.unpack_from("<3H", data, at + 6)
    registers = struct.unpack_from(f"<{g}I", data, at + 44)
    counts = struct.unpack_from(f"<{g}H", data, at + 44 + 5 * g)
    lens = iter(struct.unpack_from(f"<{p}H", data, at + 44 + 7 * g))
    parts = [[range(next(lens)) for _ in range(count)] for count in counts]
    return seats(first, [(register, None, of_shape) for register, of_shape in zip(registers, parts)])


def pages_of(data):
    """Of each page of a sound file: its bytes in all, shapes, vertices, box, and the widths of its columns."""
    at, found = 8, []
    while struct.unpack_from("<H", data, at + 4)[0] == 2:
        length, _, g, v, p = struct.unpack_from("<IH3H", data, at)
        columns = at + 6 + 38 + 7 * g + 2 * p
        cx = struct.unpack_from("<I", data, columns)[0]
        widths = (data[columns + 8], data[columns + 8 + cx]) if v else None
        found.append((length + 6, g, v, struct.unpack_from("<4d", data, at + 12), widths))
        at += 6 + length
    return found
