"""'boundary list': the table of hits."""
import struct

import made
from look_check import SAMPLE, write

HEAD = ["place", "register", "type", "least", "x", "least", "y", "greatest", "x", "greatest", "y"]


def rows(said):
    """The table as (place, register, type, box or None), and the last line."""
    lines = said.splitlines()
    assert lines[0].split() == HEAD, lines[0]
    found = []
    for line in lines[1:-1]:
        place, register, kind, *rest = line.split()
        found.append((int(place), int(register), kind, None if rest == ["no", "vertex"] else tuple(map(float, rest))))
    return found, lines[-1]


def meets(box, window):
    return box is not None and box[0] <= window[2] and window[0] <= box[2] and box[1] <= window[3] and window[1] <= box[3]


def look_sample(tell, _):
    everything = [
        (0, 101, "Polygon", (0, 0, 10, 10)),
        (1, 102, "Point", (20, 5, 20, 5)),
        (2, 101, "LineString", (-5, -5, -1, -1)),
        (3, 103, "empty", None),
    ]
    tell.same(rows(tell.good("list", SAMPLE)), (everything, "hits 4 of 4"), "everything")
    for words, hits in (
        (("--window", 0, 0, 10, 10), [0]),
        (("--spot", 10, 10), [0]),
        (("--spot", 10.5, 5), []),
        (("--spot", "-0", 0), [0]),
        (("--spot", -5, -5), [2]),
        (("--window", -1e308, -1e308, 1e308, 1e308), [0, 1, 2]),
    ):
        said = tell.good("list", SAMPLE, *words)
        tell.same(rows(said), ([everything[place] for place in hits], f"hits {len(hits)} of 4"), words)
        tell.same(tell.good("list", *words, SAMPLE), said, f"{words} before the file")


def look_queries_that_cannot_be_asked(tell, _):
    for words in (("--spot", "nan", 0), ("--spot", 0, "inf"), ("--spot", "1e999", 0), ("--window", 1, 0, 0, 1), ("--window", 0, 1, 1, 0), ("--window", 0, 0, "-nan", 1)):
        for name in ("list", "draw"):
            status, said, aside = tell.run(name, SAMPLE, *words)
            right = aside.startswith(f"{SAMPLE}: refused (1): the query is not finite, or is reversed. ") and aside.count("\n") == 1
            tell.same((status, said, right), (2, "", True), f"{name} {words}")


def look_real_outlines(tell, folder):
    """The hits are those whose box meets the window, and a page that is not opened may be damaged."""
    path = f"{folder}/grid_ny8bna_dm.boundary"
    everything, last = rows(tell.good("list", path))
    tell.same((len(everything), last), (281, "hits 281 of 281"), "all outlines")
    for window in ((-60000, 40000, 200000, 270000), (0, 0, 0, 0), (213916, -388703, 213916, -388703), (1e7, 1e7, 2e7, 2e7)):
        hits = [row for row in everything if meets(row[3], window)]
        tell.same(rows(tell.good("list", path, "--window", *window)), (hits, f"hits {len(hits)} of 281"), window)
    with open(path, "rb") as f:
        data = bytearray(f.read())
    spot = everything[0][3][:2]
    shut = next(i for i, page in enumerate(made.pages_of(data)) if not meets(page[3], (*spot, *spot)))
    start = 8 + sum(page[0] for page in made.pages_of(data)[:shut])
    struct.pack_into("<B", data, start + 6 + 38 + 4 * made.pages_of(data)[shut][1], 7)
    write(f"{folder}/type-7.boundary", data)
    tell.same(tell.good("list", f"{folder}/type-7.boundary", "--spot", *spot), tell.good("list", path, "--spot", *spot), "damage in a page that stays shut")
    status, _, aside = tell.run("list", f"{folder}/type-7.boundary")
    tell.same((status, f"refused (11), page {shut}: " in aside), (1, True), "damage in a page that is opened")


def look_many_pages(tell, folder):
    path = f"{folder}/many.boundary"
    hits, last = rows(tell.good("list", path, "--spot", 0, 0))
    tell.check(0 < len(hits) < 100 and last == f"hits {len(hits)} of 21051" and all(meets(row[3], (0, 0, 0, 0)) for row in hits), "a spot in 1,024 pages")
