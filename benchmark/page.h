/* What the parts of the plain version share: blocks, boxes and pages. */
#ifndef PAGE_H
#define PAGE_H

#include "file.h"
#include "rules.h"
#include <math.h>

/* The bytes of a block before its body, and the kinds of blocks. */
enum { HEAD = 6, FIRST_KIND = 1, PAGE_KIND = 2, LAST_KIND = 3, QUERY_KIND = 4 };

/* The types that a rule speaks of, and the greatest one. */
enum { MULTIPOLYGON = 6, LAST_TYPE = 6 };

/* Two and four bytes as a number. */
static inline unsigned load16(const uint8_t *s)
{
    uint16_t x;
    memcpy(&x, s, 2);
    return x;
}

static inline uint32_t load32(const uint8_t *s)
{
    uint32_t x;
    memcpy(&x, s, 4);
    return x;
}

/* The float of a pattern. */
static inline double value(uint64_t pattern)
{
    double x;
    memcpy(&x, &pattern, 8);
    return x;
}

/* A box of four floats. */
struct box {
    double least_x, least_y, greatest_x, greatest_y;
};

/* The box that stands in 32 bytes. */
static inline struct box box_at(const uint8_t *s)
{
    return (struct box){value(load(s)), value(load(s + 8)), value(load(s + 16)), value(load(s + 24))};
}

/* Whether the four floats are finite, and least at most greatest. */
static inline int box_formed(const struct box *b)
{
    return isfinite(b->least_x) && isfinite(b->least_y) && isfinite(b->greatest_x) && isfinite(b->greatest_y) && b->least_x <= b->greatest_x &&
           b->least_y <= b->greatest_y;
}

/* A page: its counts and its box, and where its lists and its columns stand. */
struct page {
    size_t shapes, vertices, parts;
    struct box box;
    const uint8_t *types, *part_counts, *part_lengths, *x, *y;
    size_t x_len, y_len;
};

/* The bytes of a page's body before its lists, and the bytes beside lists and columns. */
enum { BEFORE_LISTS = 38, BESIDE_LISTS = 46 };

/* The page whose body begins at a place, in a file whose frame passed. */
static inline struct page page_at(const uint8_t *body)
{
    struct page p = {.shapes = load16(body), .vertices = load16(body + 2), .parts = load16(body + 4), .box = box_at(body + 6)};
    p.types = body + BEFORE_LISTS + 4 * p.shapes;
    p.part_counts = p.types + p.shapes;
    p.part_lengths = p.part_counts + 2 * p.shapes;
    const uint8_t *lengths = p.part_lengths + 2 * p.parts;
    p.x_len = load32(lengths);
    p.y_len = load32(lengths + 4);
    p.x = lengths + 8;
    p.y = p.x + p.x_len;
    return p;
}

/* The body of the block after the one whose body begins at a place; the first page of a sound frame is that after FIRST_BODY. */
enum { FIRST_BODY = HEAD };

static inline const uint8_t *next_body(const uint8_t *body)
{
    return body + load32(body - HEAD) + HEAD;
}

/* What the walk over the frame gives: a refusal's number or 0, and how many pages and shapes it passed. */
struct frame {
    unsigned number;
    size_t pages, shapes;
};

struct frame plain_frame(const uint8_t *file, size_t len);

/* The coordinates of a page, as patterns. */
struct vertices {
    uint64_t x[MOST], y[MOST];
};

/* The box of the vertices from one on and before another; there is at least one. */
static inline struct box box_of(const struct vertices *vs, size_t from, size_t to)
{
    double x = value(vs->x[from]), y = value(vs->y[from]);
    struct box b = {x, y, x, y};
    for (size_t i = from + 1; i < to; i++) {
        x = value(vs->x[i]);
        y = value(vs->y[i]);
        b.least_x = x < b.least_x ? x : b.least_x;
        b.least_y = y < b.least_y ? y : b.least_y;
        b.greatest_x = x > b.greatest_x ? x : b.greatest_x;
        b.greatest_y = y > b.greatest_y ? y : b.greatest_y;
    }
    return b;
}

/* A refusal's number by the page's contents, or 0, and then the vertices are those of the page. */
unsigned plain_contents(const struct page *page, struct vertices *vs);

#endif
