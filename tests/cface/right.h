/* right.h: what is right, by whole numbers: the order of values, boxes, columns, and a file of one page, as the format's
 * description has them. Values are patterns, and no float is reckoned: so what is right here is right in any
 * floating-point mode. */
#ifndef RIGHT_H
#define RIGHT_H

#include "boundary.h"

#include <string.h>

/* ---- patterns */

#define MINUS UINT64_C(0x8000000000000000) /* the sign bit, and -0 */
#define LEAST UINT64_C(1)                  /* the least value over 0 */
#define LAST_SUBNORMAL UINT64_C(0x000FFFFFFFFFFFFF)
#define FIRST_NORMAL UINT64_C(0x0010000000000000)
#define ONE UINT64_C(0x3FF0000000000000)
#define TWO UINT64_C(0x4000000000000000)
#define FIVE UINT64_C(0x4014000000000000)
#define TEN UINT64_C(0x4024000000000000)
#define GRID UINT64_C(0x4170000000000000) /* 2^24, the greatest coordinate on grid */
#define GREATEST UINT64_C(0x7FEFFFFFFFFFFFFF)
#define INFINITE UINT64_C(0x7FF0000000000000)

static const uint64_t finite[] = {
    0, MINUS,
    LEAST, MINUS | LEAST,
    LEAST + 1, MINUS | (LEAST + 1),
    LAST_SUBNORMAL, MINUS | LAST_SUBNORMAL,
    FIRST_NORMAL, MINUS | FIRST_NORMAL,
    ONE, MINUS | ONE,
    GREATEST - 1, MINUS | (GREATEST - 1),
    GREATEST, MINUS | GREATEST,
};

/* Infinities, and NaNs: signalling, quiet, and of all ones. */
static const uint64_t not_finite[] = {
    INFINITE, MINUS | INFINITE,
    INFINITE + 1, MINUS | (INFINITE + 1),
    UINT64_C(0x7FF8000000000000), UINT64_C(0xFFF8000000000000),
    UINT64_C(0x7FFFFFFFFFFFFFFF), UINT64_C(0xFFFFFFFFFFFFFFFF),
};

#define FINITE (sizeof finite / sizeof finite[0])
#define NOT_FINITE (sizeof not_finite / sizeof not_finite[0])
#define VALUES (FINITE + NOT_FINITE)

/* Any of them, the finite ones first. */
static uint64_t value(size_t i)
{
    return i < FINITE ? finite[i] : not_finite[i - FINITE];
}

static int is_finite(uint64_t pattern)
{
    return (pattern & INFINITE) != INFINITE;
}

/* Finite values compare as their ranks. */
static int64_t rank(uint64_t pattern)
{
    int64_t low = (int64_t)(pattern & ~MINUS);
    return pattern & MINUS ? -low : low;
}

static int between(uint64_t least, uint64_t pattern, uint64_t greatest)
{
    return rank(least) <= rank(pattern) && rank(pattern) <= rank(greatest);
}

/* ---- pages and their boxes */

/* A page of few shapes. */
struct page {
    uint32_t registers[3];
    uint8_t types[3];
    uint16_t counts[3], lens[3];
    uint64_t xs[12], ys[12];
    size_t shapes, parts, vertices;
};

/* A page of one shape of one part. */
static struct page page_of(unsigned type, size_t vertices, const uint64_t *xs, const uint64_t *ys)
{
    struct page p;
    memset(&p, 0, sizeof p);
    p.registers[0] = 7;
    p.types[0] = (uint8_t)type;
    p.counts[0] = 1;
    p.lens[0] = (uint16_t)vertices;
    memcpy(p.xs, xs, vertices * sizeof xs[0]);
    memcpy(p.ys, ys, vertices * sizeof ys[0]);
    p.shapes = p.parts = 1;
    p.vertices = vertices;
    return p;
}

/* LineString (x0,y0) (x1,y1). */
static struct page line_of(uint64_t x0, uint64_t y0, uint64_t x1, uint64_t y1)
{
    const uint64_t xs[2] = {x0, x1}, ys[2] = {y0, y1};
    return page_of(2, 2, xs, ys);
}

/* A box is least x, least y, greatest x, greatest y. Of equal values the first met stays. */
static void box_of(const struct page *p, uint64_t box[4])
{
    size_t i;
    box[0] = box[2] = p->xs[0];
    box[1] = box[3] = p->ys[0];
    for (i = 1; i < p->vertices; i++) {
        if (rank(p->xs[i]) < rank(box[0]))
            box[0] = p->xs[i];
        if (rank(p->ys[i]) < rank(box[1]))
            box[1] = p->ys[i];
        if (rank(p->xs[i]) > rank(box[2]))
            box[2] = p->xs[i];
        if (rank(p->ys[i]) > rank(box[3]))
            box[3] = p->ys[i];
    }
}

/* The refusal of a box that stands in a file: 7 for its form, 16 where it differs in value from the right one, else 0. */
static unsigned box_refusal(const uint64_t box[4], const uint64_t right[4])
{
    size_t i;
    for (i = 0; i < 4; i++)
        if (!is_finite(box[i]))
            return BOUNDARY_REFUSED_BOX_FORM;
    if (rank(box[0]) > rank(box[2]) || rank(box[1]) > rank(box[3]))
        return BOUNDARY_REFUSED_BOX_FORM;
    for (i = 0; i < 4; i++)
        if (rank(box[i]) != rank(right[i]))
            return BOUNDARY_REFUSED_BOX;
    return 0;
}

/* ---- columns */

/* The step from one pattern to the next, zigzag: 2s, or -2s - 1 where s is negative. */
static uint64_t zigzag(uint64_t from, uint64_t to)
{
    uint64_t step = to - from;
    return step & MINUS ? ~(step << 1) : step << 1;
}

static uint64_t marker(unsigned width)
{
    return width == 0 ? 0 : UINT64_MAX >> (64 - width);
}

/* The bits of all entries at a width. */
static uint64_t entries(const uint64_t *values, size_t n, unsigned width)
{
    uint64_t bits = 0;
    size_t i;
    for (i = 1; i < n; i++)
        bits += zigzag(values[i - 1], values[i]) < marker(width) ? width : width + 64;
    return bits;
}

/* Puts the lowest bits of a number behind those that stand there, and counts them. */
static void put_bits(uint8_t *at, uint64_t *have, uint64_t number, unsigned bits)
{
    unsigned i;
    for (i = 0; i < bits; i++, ++*have)
        at[*have / 8] = (uint8_t)(at[*have / 8] | (number >> i & 1) << *have % 8);
}

/* Puts the column of one pattern or more, and gives its bytes. */
static size_t put_column(uint8_t *at, const uint64_t *values, size_t n)
{
    unsigned width = 0, other;
    uint64_t have = 0;
    size_t i;
    for (other = 1; other <= 64; other++)
        if (entries(values, n, other) < entries(values, n, width))
            width = other;
    memset(at, 0, BOUNDARY_COLUMN_ROOM(n));
    put_bits(at, &have, width, 8);
    put_bits(at, &have, values[0], 64);
    for (i = 1; i < n; i++) {
        uint64_t z = zigzag(values[i - 1], values[i]);
        put_bits(at, &have, z < marker(width) ? z : marker(width), width);
        if (z >= marker(width))
            put_bits(at, &have, values[i], 64);
    }
    return (size_t)(have + 7) / 8;
}

/* ---- files */

#define BEGUN 8 /* bytes of the block that begins a file, and of the one that ends it */
#define ENDED 14
#define BOX 20  /* where the box of the first page stands */

/* Puts a number in so many bytes, lowest first. */
static void put(uint8_t *at, uint64_t number, size_t bytes)
{
    size_t i;
    for (i = 0; i < bytes; i++)
        at[i] = (uint8_t)(number >> 8 * i & 255);
}

/* Puts the body of a page with this box, and gives its bytes. */
static size_t put_body(uint8_t *at, const struct page *p, const uint64_t box[4])
{
    uint8_t *lengths = at + 38 + 7 * p->shapes + 2 * p->parts, *columns = lengths + 8;
    size_t i, x_bytes, y_bytes;
    put(at, p->shapes, 2);
    put(at + 2, p->vertices, 2);
    put(at + 4, p->parts, 2);
    for (i = 0; i < 4; i++)
        put(at + 6 + 8 * i, box[i], 8);
    for (i = 0; i < p->shapes; i++) {
        put(at + 38 + 4 * i, p->registers[i], 4);
        put(at + 38 + 4 * p->shapes + i, p->types[i], 1);
        put(at + 38 + 5 * p->shapes + 2 * i, p->counts[i], 2);
    }
    for (i = 0; i < p->parts; i++)
        put(at + 38 + 7 * p->shapes + 2 * i, p->lens[i], 2);
    x_bytes = put_column(columns, p->xs, p->vertices);
    y_bytes = put_column(columns + x_bytes, p->ys, p->vertices);
    put(lengths, x_bytes, 4);
    put(lengths + 4, y_bytes, 4);
    return 46 + 7 * p->shapes + 2 * p->parts + x_bytes + y_bytes;
}

/* Puts the head of a block: the length of its body, and its kind. */
static void put_head(uint8_t *at, size_t length, uint64_t kind)
{
    put(at, length, 4);
    put(at + 4, kind, 2);
}

/* Puts the file of one page with this box, and gives its bytes. */
static size_t put_file(uint8_t *at, const struct page *p, const uint64_t box[4])
{
    size_t body = put_body(at + BEGUN + 6, p, box);
    uint8_t *end = at + BEGUN + 6 + body;
    put_head(at, 2, 1);
    put(at + 6, 1, 2);
    put_head(at + BEGUN, body, 2);
    put_head(end, 8, 3);
    put(end + 6, 1, 4);
    put(end + 10, p->shapes, 4);
    return BEGUN + 6 + body + ENDED;
}

#endif
