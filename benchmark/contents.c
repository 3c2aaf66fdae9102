/* The contents of a page in plain C: each rule is one pass over the page, in the order of the rules. And the full check. */
#include "page.h"

/* The limits of a type: parts, vertices in each part, and whether a part is closed. */
struct limits {
    size_t least_parts, most_parts, least, most;
    int closed;
};

static const struct limits table[LAST_TYPE + 1] = {
    {0, 0, 0, 0, 0},       /* empty */
    {1, 1, 1, 1, 0},       /* Point */
    {1, 1, 2, MOST, 0},    /* LineString */
    {1, MOST, 4, MOST, 1}, /* Polygon */
    {1, MOST, 1, 1, 0},    /* MultiPoint */
    {1, MOST, 2, MOST, 0}, /* MultiLineString */
    {1, MOST, 4, MOST, 1}, /* MultiPolygon */
};

/* Rule 11: types, part counts and part lengths, against the table and against the page's sums. */
static unsigned parts_rule(const struct page *page)
{
    size_t part = 0, vertices = 0;
    for (size_t s = 0; s < page->shapes; s++) {
        if (page->types[s] > LAST_TYPE)
            return PARTS;
        const struct limits *t = &table[page->types[s]];
        size_t count = load16(page->part_counts + 2 * s);
        if (count < t->least_parts || count > t->most_parts || count > page->parts - part)
            return PARTS;
        for (size_t end = part + count; part < end; part++) {
            size_t n = load16(page->part_lengths + 2 * part);
            if (n < t->least || n > t->most)
                return PARTS;
            vertices += n;
        }
    }
    return part == page->parts && vertices == page->vertices ? 0 : PARTS;
}

/* Rule 12: every coordinate is finite. */
static unsigned finite_rule(const struct page *page, const struct vertices *vs)
{
    for (size_t i = 0; i < page->vertices; i++)
        if (!isfinite(value(vs->x[i])) || !isfinite(value(vs->y[i])))
            return NOT_FINITE;
    return 0;
}

/* Rule 13: the first and the last vertex of a ring have the same patterns. */
static unsigned closed_rule(const struct page *page, const struct vertices *vs)
{
    size_t part = 0, from = 0;
    for (size_t s = 0; s < page->shapes; s++) {
        int closed = table[page->types[s]].closed;
        for (size_t end = part + load16(page->part_counts + 2 * s); part < end; part++) {
            size_t last = from + load16(page->part_lengths + 2 * part) - 1;
            if (closed && (vs->x[from] != vs->x[last] || vs->y[from] != vs->y[last]))
                return NOT_CLOSED;
            from = last + 1;
        }
    }
    return 0;
}

/* Whether a float is a whole number of decimetres from -2^24 to 2^24. */
static int on_grid(double x)
{
    return -16777216.0 <= x && x <= 16777216.0 && x == (double)(int32_t)x;
}

/* Rule 14: every coordinate of a MultiPolygon is on grid. */
static unsigned grid_rule(const struct page *page, const struct vertices *vs)
{
    size_t part = 0, at = 0;
    for (size_t s = 0; s < page->shapes; s++)
        for (size_t end = part + load16(page->part_counts + 2 * s); part < end; part++) {
            size_t to = at + load16(page->part_lengths + 2 * part);
            if (page->types[s] == MULTIPOLYGON)
                for (size_t i = at; i < to; i++)
                    if (!on_grid(value(vs->x[i])) || !on_grid(value(vs->y[i])))
                        return OFF_GRID;
            at = to;
        }
    return 0;
}

/* The turn of the ring of the vertices from one on and before another; they are on grid. */
static int64_t turn(const struct vertices *vs, size_t from, size_t to)
{
    int64_t sum = 0, x = (int64_t)value(vs->x[from]), y = (int64_t)value(vs->y[from]);
    for (size_t i = from + 1; i < to; i++) {
        int64_t next_x = (int64_t)value(vs->x[i]), next_y = (int64_t)value(vs->y[i]);
        sum += x * next_y - next_x * y;
        x = next_x;
        y = next_y;
    }
    return sum;
}

/* Rule 15: no ring of a MultiPolygon has the turn 0, and its first one is clockwise. */
static unsigned turn_rule(const struct page *page, const struct vertices *vs)
{
    size_t part = 0, from = 0;
    for (size_t s = 0; s < page->shapes; s++) {
        size_t first = part;
        for (size_t end = part + load16(page->part_counts + 2 * s); part < end; part++) {
            size_t to = from + load16(page->part_lengths + 2 * part);
            if (page->types[s] == MULTIPOLYGON) {
                int64_t t = turn(vs, from, to);
                if (t == 0 || (part == first && t > 0))
                    return TURN;
            }
            from = to;
        }
    }
    return 0;
}

/* Rule 16: the page's box is in value that of its vertices. */
static unsigned box_rule(const struct page *page, const struct vertices *vs)
{
    if (page->vertices == 0)
        return 0;
    struct box b = box_of(vs, 0, page->vertices);
    return b.least_x == page->box.least_x && b.least_y == page->box.least_y && b.greatest_x == page->box.greatest_x &&
                   b.greatest_y == page->box.greatest_y
               ? 0
               : BOX_VALUE;
}

size_t plain_opened;

unsigned plain_contents(const struct page *page, struct vertices *vs)
{
    plain_opened++;
    unsigned no = parts_rule(page);
    if (no == 0)
        no = (unsigned)plain_read(page->x, page->x_len, page->vertices, vs->x, MOST);
    if (no == 0)
        no = (unsigned)plain_read(page->y, page->y_len, page->vertices, vs->y, MOST);
    if (no == 0)
        no = finite_rule(page, vs);
    if (no == 0)
        no = closed_rule(page, vs);
    if (no == 0)
        no = grid_rule(page, vs);
    if (no == 0)
        no = turn_rule(page, vs);
    if (no == 0)
        no = box_rule(page, vs);
    return no;
}

uint64_t plain_check(const uint8_t *file, size_t len)
{
    struct vertices vs;
    struct frame f = plain_frame(file, len);
    if (f.number != 0)
        return ANSWER(f.number, f.pages);
    const uint8_t *body = file + FIRST_BODY;
    for (size_t i = 0; i < f.pages; i++) {
        body = next_body(body);
        struct page page = page_at(body);
        unsigned no = plain_contents(&page, &vs);
        if (no != 0)
            return ANSWER(no, i);
    }
    return f.shapes;
}
