/* Ours and plain held against each other on a boundary file and on damaged versions of it. */
#include "damage.h"
#include "make.h"
#include "sets.h"
#include <stdio.h>
#include <stdlib.h>

/* The queries that are tried on each file: everything, and some spots and windows. */
enum { SPOTS = 3, WINDOWS = 3 };

/* A number from 0 to 1. */
static double share(void)
{
    return (double)(any() >> 11) / (double)(1ull << 53);
}

/* Ends the run where two answers differ. Only a refusal of a column's bits has something above the number. */
static void expect(const struct file *f, const char *what, uint64_t ours, uint64_t plain)
{
    unsigned number = NUMBER_OF(ours);
    int of_bits = number == WIDTH || number == BITS || number == FILL;
    if (BOTH_OF(ours) == plain && (ours >> 40 != 0) == of_bits)
        return;
    fprintf(stderr, "filebench: the versions differ on %s of '%s': ours %u, %u (above: %llx), plain %u, %u\n", what, f->name, number, COUNT_OF(ours),
            (unsigned long long)(ours >> 40), NUMBER_OF(plain), COUNT_OF(plain));
    exit(1);
}

/* One query by both. */
static void same_count(const struct file *f, const char *what, size_t floats, const double *values, const uint8_t *bytes, size_t len)
{
    uint8_t q[QUERY_ROOM];
    size_t n = put_query(q, floats, values);
    if (any() % 16 == 0)
        q[any() % n] ^= (uint8_t)any();
    if (any() % 64 == 0)
        n = any() % n;
    expect(f, what, boundary_count(q, n, bytes, len), plain_count(q, n, bytes, len));
}

/* One of three numbers: one that lies anywhere, or an edge of a page. */
static double from_one(double anywhere, double least, double greatest)
{
    uint64_t k = any() % 4;
    return k == 0 ? least : k == 1 ? greatest : anywhere;
}

/* The check and some queries by both; half of the queries' coordinates are edges of pages. */
static void same(const struct file *f, const char *what, const uint8_t *bytes, size_t len, struct seen *seen)
{
    uint64_t plain = plain_check(bytes, len);
    expect(f, what, boundary_check(bytes, len), plain);
    seen->by_number[NUMBER_OF(plain)]++;
    same_count(f, what, 0, NULL, bytes, len);
    const struct box *e = &f->extent;
    double wide = e->greatest_x - e->least_x, high = e->greatest_y - e->least_y;
    for (unsigned i = 0; i < SPOTS + WINDOWS; i++) {
        struct box b = box_at(f->bodies[any() % f->pages] + 6);
        double x = from_one(e->least_x + share() * wide, b.least_x, b.greatest_x), y = from_one(e->least_y + share() * high, b.least_y, b.greatest_y);
        double dx = wide * share() / 8, dy = high * share() / 8;
        if (any() % 2 == 0)
            same_count(f, what, i < SPOTS ? 2 : 4, (double[]){x, y, x + dx, y + dy}, bytes, len);
        else
            same_count(f, what, i < SPOTS ? 2 : 4, (double[]){x - dx, y - dy, x, y}, bytes, len);
    }
}

/* ---- bytes damaged */

/* A place in the file where damage tells: anywhere, in the head of a block, in a page's lists, or at an end of a column. */
static size_t place(const struct file *f)
{
    const uint8_t *body = f->bodies[any() % f->pages];
    struct page p = page_at(body);
    if (p.vertices == 0)
        return (size_t)(body - f->bytes) - HEAD + any() % (HEAD + BESIDE_LISTS + 7 * p.shapes);
    size_t from = (size_t)(body - f->bytes), x = (size_t)(p.x - f->bytes), y = (size_t)(p.y - f->bytes);
    switch (any() % 8) {
    case 0:
        return from - HEAD + any() % (HEAD + BEFORE_LISTS);
    case 1:
        return from + BEFORE_LISTS + any() % (x - from - BEFORE_LISTS);
    case 2:
        return x + any() % 10;
    case 3:
        return y + any() % 10;
    case 4:
        return y - 1;
    case 5:
        return y + p.y_len - 1;
    case 6:
        return any() % 4 == 0 ? any() % 8 : f->len - 1 - any() % 14;
    default:
        return any() % f->len;
    }
}

/* The file with one byte changed, or two, and then as it was. */
static void with_wrong_bytes(struct file *f, struct seen *seen)
{
    size_t a = place(f), b = place(f);
    uint8_t was_a = f->bytes[a], was_b = f->bytes[b];
    f->bytes[a] ^= (uint8_t)(1u << any() % 8);
    if (any() % 4 == 0)
        f->bytes[b] = (uint8_t)any();
    same(f, "changed bytes", f->bytes, f->len, seen);
    f->bytes[b] = was_b;
    f->bytes[a] = was_a;
}

/* The file cut, or longer by a little. */
static void with_wrong_length(const struct file *f, struct seen *seen)
{
    same(f, "a cut", f->bytes, any() % 2 == 0 ? any() % f->len : f->len - 1 - any() % 20 % f->len, seen);
    same(f, "bytes behind the end", f->bytes, f->len + 1 + any() % SPARE, seen);
}

/* ---- a page's vertices changed */

/* A page as a draft. */
static void draft_of(const struct page *p, struct draft *d)
{
    memset(d, 0, sizeof *d);
    *d = (struct draft){.shapes = p->shapes, .vertices = p->vertices, .parts = p->parts};
    memcpy(d->types, p->types, p->shapes);
    memcpy(d->part_counts, p->part_counts, 2 * p->shapes);
    memcpy(d->part_lengths, p->part_lengths, 2 * p->parts);
    plain_read(p->x, p->x_len, p->vertices, d->x, MOST);
    plain_read(p->y, p->y_len, p->vertices, d->y, MOST);
    box_up(d);
}

/* A coordinate that stands for another: one that is a bit off, or a special pattern: zeros, not finite, a half, 2^24 and beside it. */
static uint64_t instead(uint64_t was)
{
    static const uint64_t special[] = {0, 1, 1ull << 63, 0x7FF0000000000000, 0xFFF0000000000000, 0x7FF8000000000000, 0x3FE0000000000000,
                                       0x4170000000000000, 0x4170000010000000, 0xC170000000000000};
    switch (any() % 4) {
    case 0:
        return was ^ 1ull << any() % 64;
    case 1:
        return was + 1;
    default:
        return special[any() % (sizeof special / sizeof *special)];
    }
}

/* The same vertices of a part in the other order, or all of them the first one. */
static void change_part(struct draft *d, size_t from, size_t n, int flat)
{
    for (size_t i = 0; i < (flat ? n : n / 2); i++) {
        size_t j = flat ? 0 : n - 1 - i;
        uint64_t x = d->x[from + i], y = d->y[from + i];
        d->x[from + i] = d->x[from + j];
        d->y[from + i] = d->y[from + j];
        if (!flat) {
            d->x[from + j] = x;
            d->y[from + j] = y;
        }
    }
}

/* One change of a page: a coordinate, a part, a type, or the lengths of two parts. */
static void change(struct draft *d)
{
    size_t part = any() % d->parts, from = 0, at = any() % d->vertices;
    for (size_t i = 0; i < part; i++)
        from += d->part_lengths[i];
    switch (any() % 7) {
    case 0:
        d->x[at] = instead(d->x[at]);
        break;
    case 1:
        d->y[at] = instead(d->y[at]);
        break;
    case 2:
        d->x[from] = d->x[from + d->part_lengths[part] - 1] = instead(d->x[from]);
        break;
    case 3:
        change_part(d, from, d->part_lengths[part], any() % 2 == 0);
        break;
    case 4:
        d->types[any() % d->shapes] = (uint8_t)(any() % 8);
        break;
    case 5:
        d->part_lengths[part]--;
        d->part_lengths[any() % d->parts]++;
        break;
    default:
        d->y[from + d->part_lengths[part] - 1] = instead(d->y[from]);
    }
}

/* A file of one page of the file, with one change or two; its box is mostly that of its vertices, and seldom it has a part of no shape. */
static void with_wrong_vertices(const struct file *f, struct seen *seen)
{
    static struct draft d;
    static struct made made;
    struct page p = page_at(f->bodies[any() % f->pages]);
    if (p.vertices == 0)
        return;
    draft_of(&p, &d);
    for (size_t k = any() % 2 + 1; k > 0; k--)
        change(&d);
    box_up(&d);
    if (any() % 4 == 0)
        d.box[any() % 4] += any() % 8 == 0 ? INFINITY : share() - 0.5;
    if (any() % 16 == 0 && d.parts < d.vertices)
        d.parts++;
    begin(&made);
    put_page(&made, &d);
    end(&made);
    same(f, "a changed page", made.bytes, made.len, seen);
}

/* Files at the limits: as many pages as may be and one more, and a page of one vertex too many. */
static void with_limits(const struct file *f, struct seen *seen)
{
    static struct draft none, long_one;
    static struct made made;
    none.shapes = long_one.shapes = long_one.parts = long_one.part_counts[0] = 1;
    long_one.types[0] = 2;
    long_one.vertices = long_one.part_lengths[0] = MOST + 1;
    for (size_t pages = MOST_PAGES; pages <= MOST_PAGES + 1; pages++) {
        begin(&made);
        for (size_t i = 0; i < pages; i++)
            put_page(&made, &none);
        end(&made);
        same(f, "a file of many pages", made.bytes, made.len, seen);
    }
    begin(&made);
    put_page(&made, &long_one);
    end(&made);
    same(f, "a page of too many vertices", made.bytes, made.len, seen);
}

void same_answers(struct file *f, size_t copies, struct seen *seen)
{
    same(f, "all", f->bytes, f->len, seen);
    with_limits(f, seen);
    for (size_t i = 0; i < copies; i++) {
        with_wrong_bytes(f, seen);
        with_wrong_vertices(f, seen);
        if (i % 8 == 0)
            with_wrong_length(f, seen);
    }
}
