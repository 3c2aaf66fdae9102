/* refusal.c: what the library refuses, as sentences for people. This is the one table of them. */
#include "refusal.h"

#include <inttypes.h>

#include "boundary.h"
#include "name.h"
#include "vertex.h"

/* What a refusal says of where it is: nothing; the page at fault; how many pages were passed before the block at fault;
 * or the page at fault with its column, as a whole or at a value. */
enum where { NOWHERE, ON_PAGE, AFTER_PAGES, IN_COLUMN, AT_VALUE };

struct sentence {
    enum where where;
    enum status status;
    const char *text;
};

static const struct sentence sentences[] = {
    [BOUNDARY_REFUSED_QUERY] = {NOWHERE, STATUS_WRONG,
        "the query is not finite, or is reversed. Ask with finite numbers, the least x and y before the greatest: --window X0 Y0 X1 Y1."},
    [BOUNDARY_REFUSED_ROOM] = {NOWHERE, STATUS_WRONG, "the room for the answer is too small. That is a fault of this command: please report it."},
    [BOUNDARY_REFUSED_MANY] = {AFTER_PAGES, STATUS_REFUSED, "the file has more than 1,024 pages. Write its shapes to two files or more."},
    [BOUNDARY_REFUSED_LENGTHS] = {AFTER_PAGES, STATUS_REFUSED,
        "a length does not fit, or bytes follow the end. The file was cut short, added to or damaged on its way: take a fresh copy."},
    [BOUNDARY_REFUSED_KIND] = {AFTER_PAGES, STATUS_REFUSED,
        "a block is of the wrong kind, or the edition is not 1. See whether it is a boundary file at all, and of edition 1; if it is, take a fresh copy."},
    [BOUNDARY_REFUSED_COUNTS] = {AFTER_PAGES, STATUS_REFUSED,
        "a count is out of its limits, or the counts at the end are wrong. Have the file written again: a page has 1 to 256 shapes and at most 2,048 vertices, "
        "and the end counts the pages and shapes before it."},
    [BOUNDARY_REFUSED_BOX_FORM] = {ON_PAGE, STATUS_REFUSED,
        "the page's box is not finite or is reversed, or is not all zero where the page has no vertex. Have the page written again: least x, least y, greatest x, "
        "greatest y."},
    [BOUNDARY_REFUSED_WIDTH] = {IN_COLUMN, STATUS_REFUSED,
        "the width of the column is over 64. The page is damaged: take a fresh copy of the file."},
    [BOUNDARY_REFUSED_BITS] = {AT_VALUE, STATUS_REFUSED,
        "the column has too few bits, or a whole byte or more too many. The page is damaged: "
        "take a fresh copy of the file."},
    [BOUNDARY_REFUSED_FILL] = {IN_COLUMN, STATUS_REFUSED,
        "the bits that fill the column's last byte are not zero. The page is damaged, or its writer leaves bits "
        "behind: take a fresh copy, or have the page written again."},
    [BOUNDARY_REFUSED_PARTS] = {ON_PAGE, STATUS_REFUSED,
        "a type is over 6, or parts and vertices do not fit the types. Give each shape the parts that its type asks for (a ring has at least 4 vertices, a line 2), and "
        "have the page written again."},
    [BOUNDARY_REFUSED_FINITE] = {ON_PAGE, STATUS_REFUSED,
        "a coordinate is not finite. Look for a vertex with no value in the program that drew it, and give it one."},
    [BOUNDARY_REFUSED_RING] = {ON_PAGE, STATUS_REFUSED,
        "a ring is not closed. Close it in the program that drew it: the last vertex must repeat the first, bit for bit."},
    [BOUNDARY_REFUSED_GRID] = {ON_PAGE, STATUS_REFUSED,
        "a MultiPolygon is off grid. Round its coordinates to whole decimetres from -16,777,216 to 16,777,216, or write its polygons as Polygons."},
    [BOUNDARY_REFUSED_TURN] = {ON_PAGE, STATUS_REFUSED,
        "a ring of a MultiPolygon has no turn, or the first ring is not clockwise. Take out rings without an area, and draw outer rings clockwise and holes the other way."},
    [BOUNDARY_REFUSED_BOX] = {ON_PAGE, STATUS_REFUSED,
        "the page's box is not the box of its vertices. A search would miss shapes: have the page written again, with the box taken from the vertices."},
    [BOUNDARY_REFUSED_PLACE] = {NOWHERE, STATUS_WRONG, "there is no shape at that place. Places are counted from 0: 'boundary list FILE' shows them."},
    [BOUNDARY_REFUSED_CLOSED] = {NOWHERE, STATUS_WRONG, "the file is already closed for writing. Open a new one."},
};

/* The sentence of a number. The library gives no other number than these; if one came, it would not be passed over. */
static const struct sentence *sentence_of(uint32_t number)
{
    static const struct sentence unknown = {NOWHERE, STATUS_REFUSED, "this command does not know the number. It is older than its library: build it again."};
    if (number >= sizeof sentences / sizeof sentences[0] || sentences[number].text == NULL)
        return &unknown;
    return &sentences[number];
}

/* The sentence of number 9, by what the value is at which reading stopped: a vertex lacks its bits, or bytes are left
 * behind the last one. */
static const struct sentence *bits_sentence(enum vertex_found found)
{
    static const struct sentence lacking = {AT_VALUE, STATUS_REFUSED,
        "the column has too few bits: they end before that value is complete. The page is damaged: "
        "take a fresh copy of the file."};
    static const struct sentence left = {IN_COLUMN, STATUS_REFUSED,
        "the column has a whole byte or more too many: it is longer than its values take. The page is damaged: "
        "take a fresh copy of the file."};
    if (found == VERTEX_LOST)
        return sentence_of(BOUNDARY_REFUSED_BITS);
    return found == VERTEX_FOUND ? &lacking : &left;
}

/* Prints the column of a refusal, where it has one: as a whole, or with the value and, where it was found, the vertex
 * that this is. */
static void print_column(FILE *out, uint64_t word, enum where where, const struct vertex *vertex)
{
    static const char *const names[] = {[BOUNDARY_COLUMN_X] = "x", [BOUNDARY_COLUMN_Y] = "y"};
    uint32_t column = BOUNDARY_COLUMN(word);
    if (column >= sizeof names / sizeof names[0] || names[column] == NULL)
        return;
    fprintf(out, ", column %s", names[column]);
    if (where == IN_COLUMN)
        fputs(" as a whole", out);
    else
        fprintf(out, ", value %" PRIu32, BOUNDARY_INDEX(word));
    if (vertex != NULL)
        fprintf(out, " (place %" PRIu64 ", register %" PRIu32 ", part %" PRIu32 ", vertex %" PRIu32 ", counted from 0)",
                vertex->place, vertex->register_number, vertex->part, vertex->vertex);
}

/* Prints where a refusal is. */
static void print_where(FILE *out, uint64_t word, enum where where, const struct vertex *vertex)
{
    uint32_t page = BOUNDARY_PAGE(word);
    if (where == AFTER_PAGES)
        fprintf(out, ", after %" PRIu32 " page%s", page, page == 1 ? "" : "s");
    else if (where != NOWHERE)
        fprintf(out, ", page %" PRIu32, page);
    if (where == IN_COLUMN || where == AT_VALUE)
        print_column(out, word, where, vertex);
}

void refusal_print(FILE *out, const struct source *source, uint64_t word)
{
    uint32_t number = BOUNDARY_NUMBER(word);
    const struct sentence *sentence = sentence_of(number);
    enum vertex_found found = VERTEX_LOST;
    struct vertex vertex;
    if (number == BOUNDARY_REFUSED_BITS) {
        found = vertex_find(source, BOUNDARY_PAGE(word), BOUNDARY_INDEX(word), &vertex);
        sentence = bits_sentence(found);
    }
    name_print(out, source->name);
    fprintf(out, ": refused (%" PRIu32 ")", number);
    print_where(out, word, sentence->where, found == VERTEX_FOUND ? &vertex : NULL);
    fprintf(out, ": %s\n", sentence->text);
}

enum status refusal_status(uint64_t word)
{
    return sentence_of(BOUNDARY_NUMBER(word))->status;
}
