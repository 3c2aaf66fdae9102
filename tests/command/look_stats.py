"""'boundary stats': what is in a file."""
import re

import made
from look_check import SAMPLE, write
from look_list import meets, rows


def counts(said):
    """What stands over the table of pages, by name; and the table."""
    head, _, table = said.partition("\n\n")
    named = {name: rest for name, rest in re.findall(r"^ *(.+?)  +(.+)$|^$", head, re.M) if name}
    return named, [line.split() for line in table.splitlines()[1:]]


def typical(data, boxes):
    """The pages, and the percent of the bytes, that the middles of the boxes open on average."""
    pages = made.pages_of(data)
    opened = bytes_opened = 0
    for box in boxes:
        x, y = box[0] / 2 + box[2] / 2, box[1] / 2 + box[3] / 2
        held = [page for page in pages if page[2] and meets(page[3], (x, y, x, y))]
        opened += len(held)
        bytes_opened += sum(page[0] for page in held)
    return f"{opened / len(boxes):.2f} pages, {100 * bytes_opened / len(boxes) / len(data):.2f} % of the bytes"


def look_files(tell, folder):
    """Pages, vertices, widths and the typical spot, against a reader in Python."""
    for path in (SAMPLE, *(f"{folder}/{name}.boundary" for name in ("grid_ny8bna_dm", "admin_ny8_bna_utm18", "coast_ne50", "points_cycle_hire"))):
        with open(path, "rb") as f:
            data = f.read()
        pages, (shapes, _) = made.pages_of(data), rows(tell.good("list", path))
        named, table = counts(tell.good("stats", path))
        vertices = sum(page[2] for page in pages)
        wanted = {"pages": len(pages), "shapes": len(shapes), "vertices": vertices, "bytes": len(data)}
        tell.same({name: int(named[name]) for name in wanted}, wanted, f"{path}, counts")
        tell.same(named["bytes per vertex"], f"{len(data) / vertices:.2f}", f"{path}, bytes per vertex")
        for kind in made.NAMES:
            of_kind = sum(row[2] == kind for row in shapes)
            tell.same(named.get(kind), str(of_kind) if of_kind else None, f"{path}, {kind}")
        spot = typical(data, [row[3] for row in shapes if row[3]])
        tell.check(named["a spot opens"].startswith(spot), f"{path}: {named['a spot opens']!r} where {spot!r} was wanted")
        for i, (length, g, v, _, widths) in enumerate(pages):
            tell.same((table[i][:2], table[i][3:]), ([str(i), str(g)], [str(v), str(length), *map(str, widths)]), f"{path}, page {i}")


def look_nothing_to_count(tell, folder):
    write(f"{folder}/none.boundary", made.file_of())
    tell.same(tell.good("stats", f"{folder}/none.boundary"), "pages             0\nshapes            0\nvertices          0\nbytes             22\n", "no pages")
    write(f"{folder}/blank.boundary", made.file_of([(7, made.EMPTY, [])]))
    said = tell.good("stats", f"{folder}/blank.boundary")
    tell.check(said.endswith("none     none\n") and "per vertex" not in said and "opens" not in said, "no vertices")


def look_many_pages(tell, folder):
    named, table = counts(tell.good("stats", f"{folder}/many.boundary"))
    tell.same((named["pages"], named["shapes"], len(table)), ("1024", "21051", 1024), "1,024 pages")
