"""'boundary show': a shape for people, as WKT and as GeoJSON; all give back the patterns."""
import json
import random
import re

import made
import wkb
from look_check import SAMPLE, write

NUMBER = r"-?[0-9.]+(?:e[+-]?[0-9]+)?"
ODD = (-0.0, 0.0, 5e-324, -5e-324, 2.2250738585072009e-308, 2.2250738585072014e-308, 1.7976931348623157e308, -1.7976931348623157e308, 0.1, 1 / 3, 2 / 3,
       1e22, 1e23, 123456789012345678.0, 9007199254740993.0, -1e-7, 0.30000000000000004, 5e-5, 1e15, 1e16, 1e17)


def patterns(nested):
    """Nested lists of floats as nested lists of patterns."""
    return [patterns(each) for each in nested] if isinstance(nested, (list, tuple)) else made.pattern(float(nested))


def coordinates(kind, parts):
    """The coordinates as GeoJSON nests them."""
    if kind == made.POINT:
        return parts[0][0]
    if kind == made.LINE:
        return parts[0]
    if kind == made.MULTIPOINT:
        return [part[0] for part in parts]
    return made.polygons(kind, parts) if kind == made.MULTIPOLYGON else parts


def from_wkt(text):
    """The word and the nested coordinates of a WKT."""
    word, rest = re.fullmatch(r"([A-Z]+) (.*)\n", text).groups()
    lists = re.sub(rf"({NUMBER}) ({NUMBER})", r'["\1","\2"]', rest.replace("(", "[").replace(")", "]"))
    nested = json.loads(lists)
    if word == "POINT":
        return word, nested[0]
    return word, [each[0] for each in nested] if word == "MULTIPOINT" else nested


def from_plain(text):
    """The parts of a shape shown for people."""
    return [[tuple(line.split()) for line in part.splitlines()[1:]] for part in text.split("\n\n")[1:]]


def same_shape(tell, path, place, shape):
    """Looks at the three forms of a shape."""
    register, kind, parts = shape
    plain = tell.good("show", path, place)
    head = f"place     {place}\nregister  {register}\ntype      {made.NAMES[kind]}\nparts     {len(parts)}\nvertices  {sum(map(len, parts))}\n"
    tell.check(plain.startswith(head), f"{path} {place}: {plain[:120]!r} where {head!r} was wanted")
    tell.same(patterns(from_plain(plain)), patterns(parts), f"{path} {place}, for people")
    feature = json.loads(tell.good("show", path, place, "--geojson"))
    tell.same((feature["type"], feature["properties"]), ("Feature", {"place": place, "register": register}), f"{path} {place}, GeoJSON")
    wkt = tell.good("show", "--wkt", path, place)
    if kind == made.EMPTY:
        tell.same((feature["geometry"], wkt), (None, "GEOMETRYCOLLECTION EMPTY\n"), f"{path} {place}, empty")
        return
    wanted = patterns(coordinates(kind, parts))
    tell.same((feature["geometry"]["type"], patterns(feature["geometry"]["coordinates"])), (made.NAMES[kind], wanted), f"{path} {place}, GeoJSON")
    word, nested = from_wkt(wkt)
    tell.same((word, patterns(nested)), (made.NAMES[kind].upper(), wanted), f"{path} {place}, WKT")


def all_types():
    """A shape of each type; the MultiPolygon has two shells, and the first has two holes."""
    square = [(0, 0), (0, 10), (10, 10), (10, 0), (0, 0)]
    hole = [(1, 1), (2, 1), (2, 2), (1, 1)]
    other = [(5, 5), (6, 5), (6, 6), (5, 5)]
    island = [(20, -0.0), (20, 5), (25, 5), (20, -0.0)]
    return [
        (1, made.EMPTY, []),
        (4294967295, made.POINT, [[(1.5, -2.5)]]),
        (3, made.LINE, [[(0, 0), (1, 0.1)]]),
        (4, made.POLYGON, [square[::-1], hole, other[::-1]]),
        (5, made.MULTIPOINT, [[(1, 2)], [(3, 4)], [(-0.0, 5e-324)]]),
        (6, made.MULTILINE, [[(0, 0), (1, 1)], [(2, 2), (3, 3), (4, 4)]]),
        (7, made.MULTIPOLYGON, [square, hole, other, island]),
        (8, made.MULTIPOLYGON, [island, square]),
        (9, made.POLYGON, [square]),
    ]


def look_sample(tell, _):
    square = [(0, 0), (0, 10), (10, 10), (10, 0), (0, 0)]
    shapes = [(101, made.POLYGON, [square]), (102, made.POINT, [[(20, 5)]]), (101, made.LINE, [[(-5, -5), (-1, -1)]]), (103, made.EMPTY, [])]
    for place, shape in enumerate(shapes):
        same_shape(tell, SAMPLE, place, shape)
    tell.same(tell.good("show", SAMPLE, 0, "--wkt"), "POLYGON ((0 0, 0 10, 10 10, 10 0, 0 0))\n", "the sample's polygon")


def look_every_type(tell, folder):
    path = f"{folder}/types.boundary"
    write(path, made.file_of(all_types()[:4], all_types()[4:]))
    for place, shape in enumerate(all_types()):
        same_shape(tell, path, place, shape)
    said = tell.good("show", path, 6)
    roles = re.findall(r"part \d+, \d+ vertices, (.*)", said)
    tell.same(roles, ["shell of polygon 0", "hole of polygon 0", "hole of polygon 0", "shell of polygon 1"], "the rings of a MultiPolygon")


def look_numbers_read_back(tell, folder):
    """Odd floats, and patterns drawn by lot."""
    lot = random.Random(1)
    drawn = [made.value(lot.getrandbits(64)) for _ in range(900)]
    values = [v for v in (*ODD, *drawn) if v - v == 0]
    shapes = [(1, made.LINE, [list(zip(values, reversed(values)))]), (2, made.MULTIPOINT, [[(v, -v)] for v in values])]
    path = f"{folder}/odd.boundary"
    write(path, made.file_of(shapes))
    for place, shape in enumerate(shapes):
        same_shape(tell, path, place, shape)
    numbers = tell.good("show", path, 0, "--wkt").replace("(", " ").replace(")", " ").replace(",", " ").split()[1:]
    for v, text in zip([v for pair in zip(values, reversed(values)) for v in pair], numbers):
        shortest = next(t for t in (f"{v:.15g}", f"{v:.16g}", f"{v:.17g}") if made.pattern(float(t)) == made.pattern(v))
        tell.same(text, shortest, "the shortest of 15, 16 and 17 digits")


def look_real_outlines(tell, folder):
    """Polygons and holes of real outlines are those that they came with."""
    path, origin = f"{folder}/grid_ny8bna_dm.boundary", list(wkb.shapes("data/grid_ny8bna_dm.wkbhex.gz"))
    holed = [place for place, (_, _, members) in enumerate(origin) if len(members) > 1 or len(members[0]) > 1]
    tell.check(len(holed) > 5, "outlines with holes or islands")
    for place in sorted({*range(0, len(origin), 20), *holed}):
        register, _, members = origin[place]
        feature = json.loads(tell.good("show", path, place, "--geojson"))
        tell.same(feature["properties"]["register"], register, f"outline {place}")
        rings = [[list(zip(xs, ys)) for xs, ys in member] for member in members]
        found = [[[tuple(v) for v in ring] for ring in member] for member in patterns(feature["geometry"]["coordinates"])]
        either_way = [[min(ring, ring[::-1]) for ring in member] for member in found]
        tell.same(either_way, [[min(ring, ring[::-1]) for ring in member] for member in rings], f"outline {place}")


def look_places(tell, _):
    for place in (4, 5, 262144, 2**32, 2**32 + 1, 2**64 - 1, 2**64, 2**64 + 1, 10**40):
        status, said, aside = tell.run("show", SAMPLE, place)
        tell.same((status, said, aside.startswith(f"{SAMPLE}: refused (17): there is no shape at that place. ")), (2, "", True), f"place {place}")
