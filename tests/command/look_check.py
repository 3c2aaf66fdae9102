"""'boundary check': a line for each file, and the right sentence for each refusal that a file can give."""
import os
import re

import made

SAMPLE = "crates/sample/stdout"
AFTER = (3, 4, 5, 6)

# What the sentence of each number must say: what is wrong, and what to do. Of 9 it says more (see SAYS_BITS).
SAYS = {
    3: ("more than 1,024 pages", "two files"),
    4: ("length does not fit, or bytes follow the end", "take a fresh copy"),
    5: ("wrong kind, or the edition is not 1", "whether it is a boundary file"),
    6: ("count is out of its limits, or the counts at the end are wrong", "written again"),
    7: ("box is not finite or is reversed, or is not all zero", "written again"),
    8: ("width of the column is over 64", "take a fresh copy"),
    9: ("the column has ", "take a fresh copy"),
    10: ("fill the column's last byte are not zero", "written again"),
    11: ("type is over 6, or parts and vertices do not fit", "written again"),
    12: ("coordinate is not finite", "vertex with no value"),
    13: ("a ring is not closed", "the last vertex must repeat the first, bit for bit"),
    14: ("MultiPolygon is off grid", "whole decimetres"),
    15: ("no turn, or the first ring is not clockwise", "outer rings clockwise"),
    16: ("box is not the box of its vertices", "written again"),
}


# Where bits are lacking, and where bytes are left over.
SAYS_BITS = ("too few bits: they end before that value is complete",
             "a whole byte or more too many: it is longer than its values take")


def where(number, page):
    if number in AFTER:
        return f"after {page} page{'' if page == 1 else 's'}"
    return f"page {page}"


def column_at(number, column, value, seats):
    """What the line says of a column, and what the sentence of 9 says then. `seats` are those of the page."""
    if number != 9 or value == len(seats):
        return f", column {column} as a whole", SAYS_BITS[1:] if number == 9 else ()
    seat = "place {}, register {}, part {}, vertex {}, counted from 0".format(*seats[value])
    return f", column {column}, value {value} ({seat})", SAYS_BITS[:1]


def line_is_right(line, path, answer):
    """Whether a line says of a file what document 01 asks for, and where in the page a column is refused."""
    sound = re.fullmatch(r"sound (\d+) pages (\d+) shapes", answer)
    if sound:
        return line == f"{path}: sound, {sound[1]} pages, {sound[2]} shapes"
    refused = re.fullmatch(r"refused (\d+) page (\d+)(?: column ([xy]) value (\d+))?", answer)
    number, page, column, value = int(refused[1]), int(refused[2]), refused[3], refused[4]
    at, says = "", SAYS[number]
    if (column is not None) != (number in (8, 9, 10)):
        return False
    if column:
        with open(path, "rb") as f:
            at, more = column_at(number, column, int(value), made.seats_of(f.read(), page))
        says += more
    head = f"{path}: refused ({number}), {where(number, page)}{at}: "
    return line.startswith(head) and line.endswith(".") and all(words in line for words in says)


def look_every_refusal(tell, folder):
    """The second program's files. Its lines are for a program that takes 40,960 bytes; the command takes more, so that files longer than that are looked at only
    where the line is for the library."""
    paths, answers = [], []
    for name in sorted(os.listdir(f"{folder}/cases")):
        if not name.endswith(".in"):
            continue
        path = f"{folder}/cases/{name}"
        if os.path.getsize(path) <= 40960 or name.startswith("library-"):
            paths.append(path)
            with open(path[:-3] + ".out", encoding="ascii") as f:
                answers.append(f.read().strip())
    status, said, aside = tell.run("check", *paths)
    tell.same((status, aside, len(said.splitlines())), (1, "", len(paths)), "all cases at once")
    for path, answer, line in zip(paths, answers, said.splitlines()):
        tell.check(line_is_right(line, path, answer), f"{path}: {line!r} for {answer!r}")
    seen = {int(answer.split()[1]) for answer in answers if answer.startswith("refused")}
    tell.same(seen, set(SAYS), "the numbers that the cases give")


def look_longer_than_the_programs_take(tell, folder):
    path = f"{folder}/cases/03-40961-bytes-else-sound.in"
    tell.check(os.path.getsize(path) > 40960, path)
    tell.check(": sound, " in tell.good("check", path), "a file of 40,961 bytes")


def look_statuses(tell, folder):
    """0 only if all are sound, 1 for a refused file, 2 for one that cannot be read, also between others."""
    bad, gone = f"{folder}/damaged.boundary", f"{folder}/no-such-file"
    write(bad, made.framed([made.page([(1, made.LINE, [[(0, 0), (1, 1)]])], shown=(0, 0, 1, 2))], 1))
    line = f"{SAMPLE}: sound, 2 pages, 4 shapes\n"
    tell.same(tell.run("check", SAMPLE), (0, line, ""), "one sound file")
    status, said, _ = tell.run("check", SAMPLE, bad, SAMPLE)
    tell.same((status, said.count(line), said.count("refused (16), page 0: ")), (1, 2, 1), "a refused file between sound ones")
    status, said, aside = tell.run("check", bad, gone, SAMPLE)
    tell.same((status, said.endswith(line), aside), (2, True, f"{gone}: cannot be opened: No such file or directory.\n"), "a missing file")
    for name in ("list", "draw", "stats"):
        status, said, aside = tell.run(name, bad)
        tell.same((status, said, aside.startswith(f"{bad}: refused (16), page 0: ")), (1, "", True), f"{name} on a refused file")
    status, said, aside = tell.run("show", bad, 0)
    tell.same((status, said, aside.startswith(f"{bad}: refused (16), page 0: ")), (1, "", True), "show on a refused file")


def look_cannot_be_read(tell, folder):
    for name in ("check", "list", "draw", "stats"):
        status, said, aside = tell.run(name, folder)
        tell.same((status, said, aside), (2, "", f"{folder}: cannot be read: Is a directory.\n"), f"{name} on a folder")
        status, said, aside = tell.run(name, "")
        tell.same((status, said, "cannot be opened" in aside), (2, "", True), f"{name} on no name")


def look_no_bytes(tell, folder):
    """The library asks for a pointer also where there are no bytes."""
    path = f"{folder}/nothing.boundary"
    write(path, b"")
    for words, name, given in ((("check", path), path, b"x"), (("check", "-"), "standard input", b"")):
        status, said, aside = tell.run(*words, given=given)
        tell.same((status, said.startswith(f"{name}: refused (4), after 0 pages: "), aside), (1, True, ""), f"no bytes, {name}")
    for name in ("list", "draw", "stats"):
        status, said, aside = tell.run(name, path)
        tell.same((status, said, aside.startswith(f"{path}: refused (4), after 0 pages: ")), (1, "", True), f"{name} of no bytes")


def look_many_pages(tell, folder):
    path = f"{folder}/many.boundary"
    tell.check(": sound, 1024 pages, " in tell.good("check", path), "a file of 1,024 pages")


def look_names_stay_on_their_line(tell, folder):
    path = f"{folder}/two\nlines"
    write(path, b"")
    status, said, _ = tell.run("check", path)
    tell.same((status, len(said.splitlines())), (1, 1), "a line break in a name")


def write(path, data):
    with open(path, "wb") as f:
        f.write(data)
