"""'boundary draw': the picture is well-formed, and has each outline once, where it belongs."""
import json
import re
import xml.etree.ElementTree as tree

import made
from look_check import SAMPLE, write
from look_forms import ODD, all_types
from look_list import meets, rows

SVG = "{http://www.w3.org/2000/svg}"


def drawn(tell, path, *words):
    """The picture, with what holds of every picture looked at."""
    said = tell.good("draw", path, *words)
    picture = tree.fromstring(said.encode())
    tell.check(not re.search(r"[\"\s(](nan|inf|-nan|-inf)", said), f"{path} {words}: a number that is none")
    listed, last = rows(tell.good("list", path, *words))
    everything, _ = rows(tell.good("list", path))
    texts = [text.text for text in picture.iter(f"{SVG}text")]
    tell.same(texts[0], last, f"{path} {words}, the title")
    tell.check(picture.find(f"{SVG}title").text.endswith(": " + last), f"{path} {words}, the document's title")
    tell.same(places(picture), sorted(row[0] for row in everything if row[3]), f"{path} {words}, outlines")
    hits = sorted(row[0] for row in listed if row[3]) if words else []
    tell.same(places(group(picture, "hits")), hits, f"{path} {words}, outlines of hits")
    return picture


def group(picture, name):
    return next(g for g in picture.iter(f"{SVG}g") if g.get("class") == name)


def places(within):
    return sorted(int(each.get("data-place")) for each in within.iter() if each.get("data-place"))


def steps(path):
    """The parts of a path in steps; a path begins each with M, and goes on with l."""
    parts = []
    for piece in re.findall(r"M[^Mz]*", path):
        numbers = list(map(int, re.findall(r"-?\d+", piece.replace("h0", ""))))
        x, y, at = numbers[0], numbers[1], [(numbers[0], numbers[1])]
        for dx, dy in zip(numbers[2::2], numbers[3::2]):
            x, y = x + dx, y + dy
            at.append((x, y))
        parts.append(at)
    return parts


def look_sample(tell, _):
    picture = drawn(tell, SAMPLE, "--window", 0, 0, 10, 10)
    tell.same(places(picture), [0, 1, 2], "the sample's outlines")
    query = next(g for g in picture.iter(f"{SVG}g") if g.get("id") == "query")
    tell.check(query[0].tag == f"{SVG}rect" and query[0].get("stroke-dasharray"), "a window is a dashed rectangle")
    spot = drawn(tell, SAMPLE, "--spot", 10, 10)
    tell.check(any(g.get("id") == "query" for g in spot.iter()), "a spot is drawn")
    tell.check(not any(g.get("id") == "query" for g in drawn(tell, SAMPLE).iter()), "everything has no mark")


def look_outlines_are_where_they_belong(tell, folder):
    """Each vertex of a path is a vertex of the shape, rounded to a step; the frame's transform turns y over."""
    path = f"{folder}/grid_ny8bna_dm.boundary"
    picture = drawn(tell, path, "--window", -60000, 40000, 200000, 270000)
    step, x0, y0 = map(float, re.search(r"steps of (\S+) of .* from \((\S+), (\S+)\)", picture.find(f"{SVG}desc").text).groups())
    outlines = next(g for g in picture.iter(f"{SVG}g") if g.get("id") == "outlines")
    scale = list(map(float, re.findall(r"[-\d.e]+", outlines.get("transform").replace("matrix", ""))))
    tell.check(scale[0] > 0 and scale[3] == -scale[0] and scale[1] == scale[2] == 0 and outlines.get("fill-rule") == "evenodd", "the transform")
    paths = {int(each.get("data-place")): each.get("d") for each in picture.iter(f"{SVG}path") if each.get("data-place")}
    for place in range(0, 281, 12):
        shape = json.loads(tell.good("show", path, place, "--geojson"))
        rings = [ring for polygon in shape["geometry"]["coordinates"] for ring in polygon]
        found = steps(paths[place])
        tell.same(len(found), len(rings), f"rings of outline {place}")
        for ring, part in zip(rings, found):
            near = {(round((x - x0) / step + d), round((y - y0) / step + e)) for x, y in ring for d in (-1e-9, 1e-9) for e in (-1e-9, 1e-9)}
            tell.check(set(part) <= near and len(part) <= len(ring) - 1, f"outline {place}")


def inside(parts, x, y):
    """Whether a spot lies inside of rings, by the rule that counts crossings."""
    crossed = 0
    for ring in parts:
        for (a, b), (c, d) in zip(ring, ring[1:] + ring[:1]):
            crossed += (b <= y) != (d <= y) and x < a + (y - b) / (d - b) * (c - a)
    return crossed % 2 == 1


def look_labels_stay_inside(tell, folder):
    """The corners of each label lie in the outline whose register it shows, and no label lies on another."""
    picture = drawn(tell, f"{folder}/grid_ny8bna_dm.boundary")
    outlines = next(g for g in picture.iter(f"{SVG}g") if g.get("id") == "outlines")
    scale, _, _, _, left, foot = map(float, re.findall(r"[-\d.e]+", outlines.get("transform").replace("matrix", "")))
    paths = {int(each.get("data-place")): steps(each.get("d")) for each in picture.iter(f"{SVG}path") if each.get("data-place")}
    texts = next(g for g in picture.iter(f"{SVG}g") if g.get("id") == "labels")
    taken = []
    for text in texts:
        x, y, size = (float(text.get(name)) for name in ("x", "y", "font-size"))
        half_width, half_height, y = 0.28 * size * len(text.text), 0.35 * size, y - 0.35 * size
        corners = [(x + dx * half_width, y + dy * half_height) for dx in (-1, 1) for dy in (-1, 1)]
        rings = [[(left + scale * a, foot - scale * b) for a, b in part] for part in paths[int(text.text)]]
        tell.check(all(inside(rings, *corner) for corner in corners), f"the label {text.text} reaches out of its outline")
        box = (x - half_width, y - half_height, x + half_width, y + half_height)
        tell.check(not any(meets(box, other) for other in taken), f"the label {text.text} lies on another")
        taken.append(box)
    tell.check(80 < len(taken) < 281, f"{len(taken)} labels")


def look_real_files(tell, folder):
    for name, words in (("coast_ne50", ("--spot", 10, 10)), ("points_cycle_hire", ("--window", -0.1, 51.5, -0.05, 51.53)), ("admin_ny8_bna_utm18", ())):
        drawn(tell, f"{folder}/{name}.boundary", *words)
    picture = drawn(tell, f"{folder}/points_cycle_hire.boundary")
    tell.same(len(list(picture.iter(f"{SVG}circle"))), 742, "a circle for each point")


def look_odd_files(tell, folder):
    """Nothing to draw, one point, every type, coordinates at the ends of what floats can say, queries far away."""
    files = {
        "none": made.file_of(),
        "blank": made.file_of([(7, made.EMPTY, [])]),
        "dot": made.file_of([(7, made.POINT, [[(1e300, -1e300)]])]),
        "dots": made.file_of([(7, made.MULTIPOINT, [[(v, w)] for v in ODD for w in ODD])]),
        "tiny": made.file_of([(7, made.LINE, [[(0.0, 5e-324), (5e-324, 0.0)]])]),
        "small": made.file_of([(7, made.LINE, [[(1e-280, 2e-280), (3e-280, 5e-280)]])]),
        "near": made.file_of([(7, made.LINE, [[(1e15, 1e15), (1e15 + 1, 1e15 + 1)]])]),
        "flat": made.file_of([(7, made.LINE, [[(0, 3), (10, 3)]]), (8, made.POLYGON, [[(0, 3), (5, 3), (9, 3), (0, 3)]])]),
        "types": made.file_of(all_types()),
    }
    queries = ((), ("--spot", 0, 0), ("--spot", 1e308, -1e308), ("--window", -1.7e308, -1.7e308, 1.7e308, 1.7e308), ("--window", 2, 2, 2, 2), ("--spot", 5e-324, 0))
    for name, data in files.items():
        write(f"{folder}/{name}.boundary", data)
        for words in queries:
            drawn(tell, f"{folder}/{name}.boundary", *words)


def look_names(tell, folder):
    """A file's name stands in the picture as text."""
    for name in (b"<&>\"'.boundary", "Bärnkopf.boundary".encode(), b"\xff\xc0\x80\xed\xa0\x80\xef\xbf\xbf\x01.boundary"):
        path = folder.encode() + b"/" + name
        with open(SAMPLE, "rb") as f:
            write(path, f.read())
        title = tree.fromstring(tell.good("draw", path).encode()).find(f"{SVG}title").text
        allowed = name.decode("utf-8", "replace")
        tell.check(title.endswith(".boundary: hits 4 of 4") and ("?" in title or title.startswith(allowed)), f"{name}: {title}")
