"""Where in the page a column is refused (8, 9, 10): the line names page and column, and the value with its shape's
vertex, or the column as a whole.

The file of these looks has two pages. Values are chosen by their patterns, so that at width 12 every step fits in its
12 bits but one, which is a marker and 64 bits.
"""
import random
import struct
import subprocess

import made
from look_check import write

BASE = made.pattern(100.0)
FIRST = [(11, made.POINT, [[(-1, -2)]]), (12, made.EMPTY, []), (13, made.LINE, [[(-3, -3), (-1, -1)]])]
# Of the second page, as steps from BASE: places 3 to 6, and the values 0 to 13 of both columns.
SECOND = [
    (21, made.EMPTY, []),
    (22, made.MULTILINE, [[0, 5], [9, 2**20, 2**20 + 3]]),
    (23, made.POLYGON, [[2**20 + 7, 2**20 + 9, 2**20 + 11, 2**20 + 7], [2**20 + 8, 2**20 + 10, 2**20 + 8, 2**20 + 8]]),
    (4294967295, made.POINT, [[2**20]]),
]
PATTERNS = [BASE + step for _, _, parts in SECOND for part in parts for step in part]
SOURCES = [f"command/{name}.c" for name in ("refusal", "vertex", "layout", "name", "source")]
TAKE = "The page is damaged: take a fresh copy of the file."
LACKING = f"the column has too few bits: they end before that value is complete. {TAKE}"
LEFT = f"the column has a whole byte or more too many: it is longer than its values take. {TAKE}"
EITHER = f"the column has too few bits, or a whole byte or more too many. {TAKE}"
FILL = ("the bits that fill the column's last byte are not zero. The page is damaged, or its writer leaves bits "
        "behind: take a fresh copy, or have the page written again.")
WIDTH = f"the width of the column is over 64. {TAKE}"


def second():
    """The second page's shapes, with x and y the same."""
    def vertices(part):
        return [(made.value(BASE + step),) * 2 for step in part]
    return [(register, kind, [vertices(part) for part in parts]) for register, kind, parts in SECOND]


def file_with(column, changed, width=12):
    """The file, with other bytes in one column of its second page; the other column is at the width."""
    sound = made.laid(made.fields(PATTERNS, width))
    columns = (changed, sound) if column == "x" else (sound, changed)
    return made.framed([made.page(FIRST), made.page(second(), columns=columns)], len(FIRST) + len(SECOND))


def cut_at(width, length):
    """The first value whose bits are not all in so many bytes of the column."""
    end = 0
    for i, of_value in enumerate(made.fields(PATTERNS, width)):
        end += sum(bits for _, bits in of_value)
        if end > 8 * length:
            return i
    return len(PATTERNS)


def seat(place, register, part, vertex):
    return f"(place {place}, register {register}, part {part}, vertex {vertex}, counted from 0)"


def kinds():
    """Of each kind of damage: its name, the column's bytes, the number, where it is in the column, and the sentence.
    The places are worked out by hand: at width 12 the first value ends at bit 72, value 1 at 84, value 2 at 96, value
    3, the marker, at 172, and each later one 12 bits on, to 292, so that 4 bits are fill."""
    whole = made.laid(made.fields(PATTERNS, 12))
    assert len(whole) == 37 and whole[36] < 16
    at = " as a whole"
    return (
        ("no-width", b"", 9, ", value 0 " + seat(4, 22, 0, 0), LACKING),
        ("width-alone", whole[:1], 9, ", value 0 " + seat(4, 22, 0, 0), LACKING),
        ("first-pattern", whole[:8], 9, ", value 0 " + seat(4, 22, 0, 0), LACKING),
        ("no-entry", whole[:9], 9, ", value 1 " + seat(4, 22, 0, 1), LACKING),
        ("entry", whole[:10], 9, ", value 1 " + seat(4, 22, 0, 1), LACKING),
        ("entry-of-part-1", whole[:11], 9, ", value 2 " + seat(4, 22, 1, 0), LACKING),
        ("marker", whole[:13], 9, ", value 3 " + seat(4, 22, 1, 1), LACKING),
        ("marker-value", whole[:21], 9, ", value 3 " + seat(4, 22, 1, 1), LACKING),
        ("after-marker", whole[:22], 9, ", value 4 " + seat(4, 22, 1, 2), LACKING),
        ("ring", whole[:23], 9, ", value 5 " + seat(5, 23, 0, 0), LACKING),
        ("hole", whole[:30], 9, ", value 9 " + seat(5, 23, 1, 0), LACKING),
        ("hole-end", whole[:34], 9, ", value 12 " + seat(5, 23, 1, 3), LACKING),
        ("last", whole[:36], 9, ", value 13 " + seat(6, 4294967295, 0, 0), LACKING),
        ("byte-left", whole + b"\0", 9, at, LEFT),
        ("bytes-left", whole + b"\1\2\3", 9, at, LEFT),
        ("byte-left-and-fill", whole[:36] + bytes([whole[36] | 16, 0]), 9, at, LEFT),
        ("fill-low", whole[:36] + bytes([whole[36] | 16]), 10, at, FILL),
        ("fill-high", whole[:36] + bytes([whole[36] | 128]), 10, at, FILL),
        ("width-65", b"\x41" + whole[1:], 8, at, WIDTH),
        ("width-255", b"\xff", 8, at, WIDTH),
    )


def said_by_each(tell, path, line, *more):
    """Every command that opens the second page says the same of it, and ends with 1. `more` are further such uses."""
    tell.same(tell.run("check", path), (1, line, ""), f"check {path}")
    for words in (("list",), ("draw",), ("draw", "--spot", -1, -1), ("stats",), ("show", 3), ("show", 4), *more):
        tell.same(tell.run(words[0], path, *words[1:]), (1, "", line), f"{words} of {path}")


def first_is_good(tell, path):
    """What keeps to the first page is as good as ever."""
    tell.check("hits 1 of 7\n" in tell.good("list", path, "--spot", -1, -1), f"list of the first page of {path}")
    tell.check("\nregister  13\n" in tell.good("show", path, 2), f"show in the first page of {path}")


def look_file_is_sound(tell, folder):
    """What is damaged below is sound before, at each width."""
    for width in (0, 7, 12, 64):
        path = f"{folder}/where-{width}.boundary"
        write(path, file_with("x", made.laid(made.fields(PATTERNS, width)), width))
        tell.same(tell.good("check", path), f"{path}: sound, 2 pages, 7 shapes\n", f"width {width}")


def look_each_kind(tell, folder):
    for column in ("x", "y"):
        for name, changed, number, at, sentence in kinds():
            path = f"{folder}/where-{column}-{name}.boundary"
            write(path, file_with(column, changed))
            line = f"{path}: refused ({number}), page 1, column {column}{at}: {sentence}\n"
            said_by_each(tell, path, line, ("list", "--spot", 100, 100), ("show", 6, "--wkt"))
            first_is_good(tell, path)


def look_every_cut(tell, folder):
    """Each column cut to each length, at several widths."""
    paths, lines, seats = [], [], made.seats(len(FIRST), SECOND)
    tell.same(len(seats), len(PATTERNS), "a seat for each value")
    for width, column in ((w, c) for w in (0, 7, 12, 64) for c in ("x", "y")):
        whole = made.laid(made.fields(PATTERNS, width))
        for length in range(len(whole)):
            path, value = f"{folder}/where-{column}-{width}-{length}.boundary", cut_at(width, length)
            write(path, file_with(column, whole[:length], width))
            paths.append(path)
            at = f"page 1, column {column}, value {value} {seat(*seats[value])}"
            lines.append(f"{path}: refused (9), {at}: {LACKING}")
    status, said, aside = tell.run("check", *paths)
    tell.same((status, aside, len(said.splitlines())), (1, "", len(paths)), "all cuts at once")
    for line, wanted in zip(said.splitlines(), lines):
        tell.same(line, wanted, "a cut")
    for value in range(len(PATTERNS)):
        tell.check(any(f", value {value} (" in line for line in said.splitlines()), f"a cut at value {value}")


def look_no_vertices(tell, folder):
    """A page of empty shapes has columns of no bytes: any byte is left over, also one that would be a wrong width."""
    for column, changed in (("x", (b"\0", b"")), ("y", (b"", b"\0")), ("x", (b"\xff", b"\0")), ("y", (b"", bytes(9)))):
        path = f"{folder}/where-empty-{column}.boundary"
        blank = made.page([(21, made.EMPTY, []), (22, made.EMPTY, [])], columns=changed)
        write(path, made.framed([made.page(FIRST), blank], 5))
        said_by_each(tell, path, f"{path}: refused (9), page 1, column {column} as a whole: {LEFT}\n")


def look_first_fault_is_told(tell, folder):
    """Tables go before columns, x before y, and the first page before the second; a pipe is told of as a file is."""
    cut, path = made.laid(made.fields(PATTERNS, 12))[:30], f"{folder}/where-both.boundary"
    both = made.page(second(), columns=(cut, b"\x41"))
    line = f"standard input: refused (9), page 1, column x, value 9 {seat(5, 23, 1, 0)}: {LACKING}\n"
    given = made.framed([made.page(FIRST), both], 7)
    tell.same(tell.run("check", "-", given=given), (1, line, ""), "both columns, by a pipe")
    write(path, made.framed([both, both], 8))
    line = f"{path}: refused (9), page 0, column x, value 9 {seat(2, 23, 1, 0)}: {LACKING}\n"
    tell.same(tell.run("check", path), (1, line, ""), "both pages")
    write(path, made.framed([made.page(second(), types=[7, 5, 3, 1], columns=(cut, cut))], 4))
    status, said, _ = tell.run("check", path)
    tell.same((status, said.startswith(f"{path}: refused (11), page 0: ")), (1, True), "a type over 6 before a column")


def word(number, page, column, index):
    return f"{index << 42 | column << 40 | number << 32 | page:x}"


def refused(folder, asked, *paths):
    """The lines of tests/command/refused.c on files; `asked` is number, page, column and index."""
    words = [f"{folder}/refused", word(*asked), *paths]
    done = subprocess.run(words, capture_output=True, check=False, text=True)
    return done.returncode, done.stdout.splitlines(), done.stderr


def build_refused(folder):
    """Builds tests/command/refused.c with the compiler's watch over memory and undefined behaviour."""
    flags = ("-std=c11 -g -O1 -D_POSIX_C_SOURCE=200809L -Wall -Wextra -Wpedantic -Wconversion -Werror "
             "-fsanitize=address,undefined -fno-sanitize-recover=all -Iinclude -Icommand")
    subprocess.run(["gcc", *flags.split(), "tests/command/refused.c", *SOURCES, "-o", f"{folder}/refused"], check=True)


def look_words_that_do_not_belong(tell, folder):
    """A word and bytes that do not belong together, and every start of the file: what cannot be found is left out, and
    nothing is read behind the bytes. The second page is there from the length `end` on."""
    build_refused(folder)
    path, data = f"{folder}/where-word.boundary", file_with("x", b"")
    write(path, data)
    end, found = len(data) - 14, f" {seat(5, 23, 1, 0)}: {LACKING}"
    for asked, short, full in (
        ((9, 1, 1, 9), f"page 1, column x, value 9: {EITHER}", f"page 1, column x, value 9{found}"),
        ((9, 1, 2, 9), f"page 1, column y, value 9: {EITHER}", f"page 1, column y, value 9{found}"),
        ((9, 1, 2, 14), f"page 1, column y, value 14: {EITHER}", f"page 1, column y as a whole: {LEFT}"),
        ((9, 1, 1, 15), f"page 1, column x, value 15: {EITHER}", None),
        ((9, 1, 1, 4095), f"page 1, column x, value 4095: {EITHER}", None),
        ((9, 2, 1, 0), f"page 2, column x, value 0: {EITHER}", None),
        ((9, 2**32 - 1, 2, 3), f"page 4294967295, column y, value 3: {EITHER}", None),
        ((9, 1, 0, 9), f"page 1: {EITHER}", f"page 1: {LACKING}"),
        ((9, 1, 3, 9), f"page 1: {EITHER}", f"page 1: {LACKING}"),
        ((8, 7, 1, 5), f"page 7, column x as a whole: {WIDTH}", None),
        ((10, 7, 2, 5), f"page 7, column y as a whole: {FILL}", None),
    ):
        head = f"{path}: refused ({asked[0]}), "
        lines = [head + short] * end + [head + (full or short)] * (len(data) + 1 - end)
        tell.same(refused(folder, asked, path), (0, lines, ""), f"the word {asked}")


def look_tables_that_do_not_fit(tell, folder):
    """Part counts and lengths that do not reach the value, or go on behind the vertices: the line has page, column and
    value alone."""
    build_refused(folder)
    data, path = file_with("x", b""), f"{folder}/where-tables.boundary"
    counts = 8 + len(made.page(FIRST)) + 44 + 5 * len(SECOND)
    tell.same(struct.unpack_from("<9H", data, counts), (0, 2, 2, 1, 2, 3, 4, 4, 1), "the tables of the second page")
    for tables, value in (
        ((0, 0, 2, 1, 2, 3, 4, 4, 1), 13), ((0, 2, 1, 1, 2, 3, 4, 4, 1), 13), ((0, 2, 2, 1, 1, 3, 4, 4, 1), 13),
        ((0, 2, 2, 1, 2, 3, 4, 0, 1), 10), ((0, 2, 2, 1, 2, 3, 4, 4, 0), 13), ((0, 2, 2, 9, 2, 3, 4, 4, 0), 13),
        ((0, 2, 2, 1, 2, 3, 4, 4, 9), 15),
    ):
        changed = bytearray(data)
        struct.pack_into("<9H", changed, counts, *tables)
        write(path, changed)
        status, lines, aside = refused(folder, (9, 1, 1, value), path)
        line = f"{path}: refused (9), page 1, column x, value {value}: {EITHER}"
        tell.same((status, lines[-1], aside), (0, line, ""), f"the tables {tables}")


def look_bytes_changed_by_lot(tell, folder):
    """Whatever the bytes are, nothing is read behind them, and a line is printed."""
    build_refused(folder)
    data, lot, paths = file_with("x", b""), random.Random(4), []
    for i in range(40):
        changed = bytearray(data)
        for _ in range(lot.randint(1, 30)):
            changed[lot.randrange(8, len(changed))] = lot.choice((0, 1, 2, 255, lot.randrange(256)))
        paths.append(f"{folder}/where-lot-{i}.boundary")
        write(paths[-1], changed)
    for value in (0, 9, 13):
        status, lines, aside = refused(folder, (9, 1, 1, value), *paths)
        tell.same((status, len(lines), aside), (0, len(paths) * (len(data) + 1), ""), f"value {value}, by lot")
        right = [f", page 1, column x, value {value}" in line or line.endswith(LEFT) for line in lines]
        tell.check(all(right), f"value {value}, by lot: the lines")
