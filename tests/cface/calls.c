/* calls SAMPLE: every call of boundary.h, as a C or a C++ program makes it. SAMPLE is the sample file of the format's description, byte by byte as
 * it should be. All that is lent stands in one struct with guards between. Before a call its contents are kept, after it they must be what was kept,
 * but for what the call is to put: so a stray write is seen wherever it falls, and a refused call must have changed nothing. Prints how many checks
 * were made; the status is 0 only where all hold. */
#include "boundary.h"

#include <stdio.h>
#include <string.h>

#define SAMPLE 260      /* bytes of the sample file, of which 246 stand before the end block */
#define FIRST_PAGE 8    /* where the length of its first page's block stands, and the lengths of that page's columns */
#define COLUMN_LENGTHS 70
#define X_COLUMN 78     /* where the x column of its first page starts, and its bytes; the y column has as many */
#define X_BYTES 34
#define X_VALUES 6
#define SECOND_PAGE 146 /* where its second page's block starts, its types, and its columns */
#define SECOND_TYPES 198
#define SECOND_X 214
#define SECOND_Y 230
#define GUARD 4

/* All that is lent to be written to. */
struct lent {
    uint64_t guard0[GUARD], writer[6];
    uint64_t guard1[GUARD], position[6];
    uint64_t guard2[GUARD], values[8];
    uint64_t guard3[GUARD], about[6], guard4[GUARD], xs[8], guard5[GUARD], ys[8];
    uint64_t guard6[GUARD];
    uint32_t places[8];
    uint64_t guard7[GUARD];
    uint16_t lens[8];
    uint64_t guard8[GUARD];
    uint8_t column[128];
    uint64_t guard9[GUARD];
    uint8_t file[512];
    uint64_t guard10[GUARD];
};

static struct lent now, kept;
static uint8_t sample[SAMPLE];
static unsigned checks, failed;

/* Counts a check, and says which did not hold. */
static void expect(int holds, const char *what, int line)
{
    checks++;
    if (holds)
        return;
    failed++;
    printf("line %d: %s\n", line, what);
}
#define EXPECT(holds) expect(holds, #holds, __LINE__)

/* What is lent is just what was kept, with what was put there since. */
static int same(void)
{
    return memcmp(&now, &kept, sizeof now) == 0;
}

/* Fills all that is lent with a pattern that means nothing, and keeps it. */
static void fresh(void)
{
    memset(&now, 0xA5, sizeof now);
    kept = now;
}

/* A refusal that tells just this, bit by bit and by the header's words. */
static int tells(uint64_t word, enum boundary_refusal number, uint32_t page, enum boundary_column column, uint32_t index)
{
    const uint64_t due = (uint64_t)index << 42 | (uint64_t)column << 40 | (uint64_t)number << 32 | page;
    return word == due && BOUNDARY_NUMBER(word) == (uint32_t)number && BOUNDARY_PAGE(word) == page &&
           BOUNDARY_COLUMN(word) == (uint32_t)column && BOUNDARY_INDEX(word) == index;
}

/* A refusal that tells neither column nor index. */
static int refused(uint64_t word, enum boundary_refusal number, uint32_t page)
{
    return tells(word, number, page, BOUNDARY_COLUMN_NONE, 0);
}

/* A refusal by that number, which concerns no page and has changed nothing. */
#define REFUSED(call, number)                      \
    do {                                           \
        EXPECT(refused((call), (number), 0));      \
        EXPECT(same());                            \
    } while (0)

/* A refusal of a column that is read alone, at that value. */
#define REFUSED_AT(call, number, index)                                            \
    do {                                                                           \
        EXPECT(tells((call), (number), 0, BOUNDARY_COLUMN_NONE, (index)));         \
        EXPECT(same());                                                            \
    } while (0)

/* The call says that number; what it is to put is put in `kept` first. */
#define SAYS(call, number)                         \
    do {                                           \
        EXPECT((call) == (uint64_t)(number));      \
        EXPECT(same());                            \
    } while (0)

static uint64_t pattern(double x)
{
    uint64_t bits;
    memcpy(&bits, &x, sizeof bits);
    return bits;
}

/* ---- a word taken apart */

/* Each part by itself, beside all others, and without the bits that no answer has. */
static void taking_apart(void)
{
    const uint64_t number = UINT64_C(9) << 32, y = UINT64_C(2) << 40, index = UINT64_C(2048) << 42, above = UINT64_C(0xFFFFC) << 40;
    EXPECT(BOUNDARY_NUMBER(number) == 9 && BOUNDARY_COLUMN(number) == 0 && BOUNDARY_INDEX(number) == 0);
    EXPECT(BOUNDARY_NUMBER(y) == 0 && BOUNDARY_COLUMN(y) == BOUNDARY_COLUMN_Y && BOUNDARY_INDEX(y) == 0);
    EXPECT(BOUNDARY_NUMBER(index) == 0 && BOUNDARY_COLUMN(index) == 0 && BOUNDARY_INDEX(index) == BOUNDARY_MOST_VALUES);
    EXPECT(BOUNDARY_SAYS(above | y | index | number | 7) == 7 && BOUNDARY_PAGE(above | y | index | number | 7) == 7);
    EXPECT(BOUNDARY_NUMBER((UINT64_C(0x3FFF) << 40) | number) == BOUNDARY_REFUSED_BITS);
    EXPECT(BOUNDARY_COLUMN(above | number) == BOUNDARY_COLUMN_NONE && BOUNDARY_COLUMN(above | y) == BOUNDARY_COLUMN_Y);
    EXPECT(BOUNDARY_INDEX(UINT64_MAX) == 4095 && BOUNDARY_COLUMN(UINT64_MAX) == 3 && BOUNDARY_NUMBER(UINT64_MAX) == 255);
    EXPECT(BOUNDARY_INDEX((UINT64_C(1023) << 54) | index) == BOUNDARY_MOST_VALUES);
}

/* ---- the sample's pages, and pages that are refused */

struct page {
    uint32_t registers[2];
    uint8_t types[2];
    uint16_t counts[2], lens[2];
    uint64_t xs[6], ys[6];
    size_t shapes, parts, vertices;
};

/* A page of at most two shapes, from its vertices as x, y, x, y, .. */
static struct page page_of(size_t shapes, uint32_t r0, unsigned t0, uint32_t r1, unsigned t1, size_t parts, unsigned l0, unsigned l1, const double *points)
{
    struct page p;
    size_t i;
    memset(&p, 0, sizeof p);
    p.registers[0] = r0;
    p.registers[1] = r1;
    p.types[0] = (uint8_t)t0;
    p.types[1] = (uint8_t)t1;
    p.counts[0] = t0 != 0;
    p.counts[1] = t1 != 0;
    p.lens[0] = (uint16_t)l0;
    p.lens[1] = (uint16_t)l1;
    p.shapes = shapes;
    p.parts = parts;
    p.vertices = l0 + l1;
    for (i = 0; i < p.vertices; i++) {
        p.xs[i] = pattern(points[2 * i]);
        p.ys[i] = pattern(points[2 * i + 1]);
    }
    return p;
}

/* Register 101, Polygon (0,0) (0,10) (10,10) (10,0) (0,0); register 102, Point (20,5). */
static struct page first_page(void)
{
    static const double points[] = {0, 0, 0, 10, 10, 10, 10, 0, 0, 0, 20, 5};
    return page_of(2, 101, 3, 102, 1, 2, 5, 1, points);
}

/* Register 101, LineString (-5,-5) (-1,-1); register 103, empty. */
static struct page second_page(void)
{
    static const double points[] = {-5, -5, -1, -1};
    return page_of(2, 101, 2, 103, 0, 1, 2, 0, points);
}

/* One shape of one ring. */
static struct page ring_page(unsigned type, const double *points)
{
    return page_of(1, 7, type, 0, 0, 1, 4, 0, points);
}

static uint64_t add_in(struct page p, size_t words, size_t room)
{
    return boundary_page(now.writer, words, now.file, room, p.registers, p.shapes, p.types, p.shapes, p.counts, p.shapes, p.lens, p.parts, p.xs, p.vertices,
                         p.ys, p.vertices);
}

static uint64_t add(struct page p)
{
    return add_in(p, 6, sizeof now.file);
}

/* What a step of the writer is to leave: a state, and the sample's bytes up to its position. */
static void leaves(uint64_t position, uint64_t pages, uint64_t shapes, uint64_t closed)
{
    kept.writer[0] = position;
    kept.writer[1] = pages;
    kept.writer[2] = shapes;
    kept.writer[3] = closed;
    memcpy(kept.file, sample, (size_t)position);
}

/* Writes the sample. The words that come in mean nothing, and those behind the fourth stay. */
static void write_sample(void)
{
    fresh();
    leaves(8, 0, 0, 0);
    SAYS(boundary_open(now.writer, 6, now.file, sizeof now.file), 0);
    leaves(146, 1, 2, 0);
    SAYS(add(first_page()), 0);
    leaves(246, 2, 4, 0);
    SAYS(add(second_page()), 0);
    leaves(SAMPLE, 2, 4, 1);
    SAYS(boundary_close(now.writer, 6, now.file, sizeof now.file), 0);
}

/* The state as it stands before a call that is to be refused. */
static void from(uint64_t position, uint64_t pages, uint64_t shapes, uint64_t closed)
{
    now.writer[0] = position;
    now.writer[1] = pages;
    now.writer[2] = shapes;
    now.writer[3] = closed;
    kept = now;
}

static void writer_states(void)
{
    write_sample();
    REFUSED(boundary_open(now.writer, 3, now.file, sizeof now.file), BOUNDARY_REFUSED_ROOM);
    REFUSED(add_in(first_page(), 3, sizeof now.file), BOUNDARY_REFUSED_ROOM);
    REFUSED(boundary_close(now.writer, 0, now.file, sizeof now.file), BOUNDARY_REFUSED_ROOM);
    REFUSED(boundary_open(now.writer, 4, now.file, BOUNDARY_OPEN_ROOM - 1), BOUNDARY_REFUSED_ROOM);
    REFUSED(add(first_page()), BOUNDARY_REFUSED_CLOSED);
    REFUSED(boundary_close(now.writer, 4, now.file, sizeof now.file), BOUNDARY_REFUSED_CLOSED);
    from(246, 2, 4, UINT64_C(1) << 63);
    REFUSED(boundary_close(now.writer, 4, now.file, sizeof now.file), BOUNDARY_REFUSED_CLOSED);
    /* words that 32 bits do not hold are over the limit, and are not cut off */
    from(8, UINT64_C(1) << 32, 0, 0);
    REFUSED(add(first_page()), BOUNDARY_REFUSED_MANY);
    from(8, 0, (UINT64_C(1) << 32) + 5, 0);
    REFUSED(boundary_close(now.writer, 4, now.file, sizeof now.file), BOUNDARY_REFUSED_MANY);
    from(8, 1024, 0, 0);
    REFUSED(add(first_page()), BOUNDARY_REFUSED_MANY);
    from(UINT64_MAX, 0, 0, 0);
    REFUSED(add(first_page()), BOUNDARY_REFUSED_ROOM);
    REFUSED(boundary_close(now.writer, 4, now.file, sizeof now.file), BOUNDARY_REFUSED_ROOM);
    from(8, 0, 0, 0);
    REFUSED(add_in(first_page(), 4, 145), BOUNDARY_REFUSED_ROOM);
    REFUSED(boundary_close(now.writer, 4, now.file, 8 + BOUNDARY_CLOSE_ROOM - 1), BOUNDARY_REFUSED_ROOM);
    EXPECT(BOUNDARY_PAGE_ROOM(2, 2, 6) >= 138);
}

static void pages_refused(void)
{
    static const double clockwise[] = {0, 0, 0, 1, 1, 0, 0, 0}, other_way[] = {0, 0, 1, 0, 0, 1, 0, 0}, open_ring[] = {0, 0, 0, 1, 1, 0, 0, 2};
    static const double half[] = {0, 0, 0, 0.5, 1, 0, 0, 0};
    struct page p = first_page();
    fresh();
    from(8, 0, 0, 0);
    REFUSED(boundary_page(now.writer, 4, now.file, sizeof now.file, p.registers, 2, p.types, 1, p.counts, 2, p.lens, 2, p.xs, 6, p.ys, 6),
            BOUNDARY_REFUSED_COUNTS);
    p.types[1] = 7;
    REFUSED(add(p), BOUNDARY_REFUSED_PARTS);
    p = second_page();
    p.ys[1] = pattern(1e308 * 10);
    REFUSED(add(p), BOUNDARY_REFUSED_FINITE);
    REFUSED(add(ring_page(3, open_ring)), BOUNDARY_REFUSED_RING);
    REFUSED(add(ring_page(6, half)), BOUNDARY_REFUSED_GRID);
    REFUSED(add(ring_page(6, other_way)), BOUNDARY_REFUSED_TURN);
    kept = now;
    EXPECT(add(ring_page(6, clockwise)) == 0);
}

/* ---- the full check, count and search */

static uint64_t check(size_t len)
{
    return boundary_check(now.file, len);
}

static void checking(void)
{
    write_sample();
    SAYS(check(SAMPLE), 4);
    REFUSED(check(0), BOUNDARY_REFUSED_LENGTHS);
    EXPECT(refused(check(SAMPLE - 1), BOUNDARY_REFUSED_LENGTHS, 2));
    EXPECT(refused(check(SAMPLE + 1), BOUNDARY_REFUSED_LENGTHS, 2));
    EXPECT(same());
    now.file[6] = 2;
    EXPECT(refused(check(SAMPLE), BOUNDARY_REFUSED_KIND, 0));
    now.file[6] = 1;
    now.file[SECOND_TYPES] = 7;
    EXPECT(refused(check(SAMPLE), BOUNDARY_REFUSED_PARTS, 1));
}

/* A query's block, of 0, 2 or 4 floats. */
static uint8_t query[BOUNDARY_QUERY_ROOM];
static size_t query_len;

static void ask(size_t floats, double a, double b, double c, double d)
{
    const uint64_t bits[4] = {pattern(a), pattern(b), pattern(c), pattern(d)};
    size_t i;
    memset(query, 0, sizeof query);
    query[0] = (uint8_t)(8 * floats);
    query[4] = 4;
    for (i = 0; i < 8 * floats; i++)
        query[6 + i] = (uint8_t)(bits[i / 8] >> 8 * (i % 8) & 255);
    query_len = 6 + 8 * floats;
}

static uint64_t count(void)
{
    return boundary_count(query, query_len, now.file, SAMPLE);
}

static uint64_t search(size_t room)
{
    return boundary_search(query, query_len, now.file, SAMPLE, now.places, room);
}

/* A query that hits the shape at place 0 alone, and one that hits none. */
static void hits_first(void)
{
    now.places[0] = 9;
    kept = now;
    SAYS(count(), 1);
    kept.places[0] = 0;
    SAYS(search(8), 1);
    REFUSED(search(0), BOUNDARY_REFUSED_ROOM);
}

static void hits_none(void)
{
    SAYS(count(), 0);
    SAYS(search(0), 0);
}

static void searching(void)
{
    uint32_t i;
    write_sample();
    ask(4, 0, 0, 10, 10);
    hits_first();
    ask(2, 10, 10, 0, 0);
    hits_first();
    ask(2, -0.0, 0, 0, 0);
    hits_first();
    ask(2, 10.5, 5, 0, 0);
    hits_none();
    ask(0, 0, 0, 0, 0);
    REFUSED(search(3), BOUNDARY_REFUSED_ROOM);
    SAYS(count(), 4);
    for (i = 0; i < 4; i++)
        kept.places[i] = i;
    SAYS(search(4), 4);
    ask(4, 10, 0, 0, 10);
    REFUSED(search(8), BOUNDARY_REFUSED_QUERY);
    REFUSED(count(), BOUNDARY_REFUSED_QUERY);
    query_len = 0;
    REFUSED(count(), BOUNDARY_REFUSED_QUERY);
}

/* Damage in a page that a query does not open is not reported. */
static void searching_past_damage(void)
{
    write_sample();
    now.file[SECOND_TYPES] = 7;
    ask(4, 0, 0, 10, 10);
    hits_first();
    ask(0, 0, 0, 0, 0);
    kept = now;
    EXPECT(refused(count(), BOUNDARY_REFUSED_PARTS, 1));
    EXPECT(refused(search(8), BOUNDARY_REFUSED_PARTS, 1));
    EXPECT(same());
}

/* ---- columns */

static void writing_columns(void)
{
    static const uint8_t zero_one[10] = {2, 0, 0, 0, 0, 0, 0, 0, 0, 2};
    static const uint64_t values[2] = {0, 1}, many[BOUNDARY_MOST_VALUES + 1] = {0};
    fresh();
    REFUSED(boundary_column_write(values, 2, now.column, 9), BOUNDARY_REFUSED_ROOM);
    REFUSED(boundary_column_write(many, BOUNDARY_MOST_VALUES + 1, now.column, sizeof now.column), BOUNDARY_REFUSED_MANY);
    SAYS(boundary_column_write(values, 0, now.column, 0), 0);
    memcpy(kept.column, zero_one, 10);
    SAYS(boundary_column_write(values, 2, now.column, sizeof now.column), 10);
    kept.values[0] = 0;
    kept.values[1] = 1;
    SAYS(boundary_column_read(now.column, 10, 2, now.values, 8), 2);
    EXPECT(BOUNDARY_COLUMN_ROOM(2) >= 10);
}

static void columns_refused(void)
{
    static const uint8_t wide[10] = {65, 0}, filled[10] = {2, 0, 0, 0, 0, 0, 0, 0, 0, 6};
    fresh();
    REFUSED(boundary_column_read(filled, 10, 2049, now.values, 8), BOUNDARY_REFUSED_MANY);
    REFUSED(boundary_column_read(filled, 10, 2, now.values, 1), BOUNDARY_REFUSED_ROOM);
    REFUSED_AT(boundary_column_read(wide, 10, 2, now.values, 8), BOUNDARY_REFUSED_WIDTH, 0);
    REFUSED_AT(boundary_column_read(filled, 9, 2, now.values, 8), BOUNDARY_REFUSED_BITS, 1);
    REFUSED_AT(boundary_column_read(filled, 10, 2, now.values, 8), BOUNDARY_REFUSED_FILL, 2);
    REFUSED_AT(boundary_column_read(filled, 1, 0, now.values, 8), BOUNDARY_REFUSED_BITS, 0);
}

/* The x column of the sample's first page, where it stands: read at once, and one value a call. */
static void reading_in_place(void)
{
    struct page p = first_page();
    uint64_t i;
    write_sample();
    memcpy(kept.values, p.xs, sizeof p.xs);
    SAYS(boundary_column_read(now.file + X_COLUMN, X_BYTES, 6, now.values, 8), 6);
    memset(now.position, 0, 4 * sizeof now.position[0]);
    for (i = 0; i < 6; i++) {
        kept = now;
        EXPECT(boundary_column_step(now.file + X_COLUMN, X_BYTES, 6, now.position, 6) == 1);
        EXPECT(now.position[1] == i + 1 && now.position[2] == 1 && now.position[3] == p.xs[i]);
        EXPECT(now.position[0] > kept.position[0] || i == 0);
        memcpy(kept.position, now.position, 4 * sizeof now.position[0]);
        EXPECT(same());
    }
    SAYS(boundary_column_step(now.file + X_COLUMN, X_BYTES, 6, now.position, 4), 0);
    REFUSED_AT(boundary_column_step(now.file + X_COLUMN, X_BYTES + 1, 6, now.position, 4), BOUNDARY_REFUSED_BITS, 6);
    REFUSED_AT(boundary_column_step(now.file + X_COLUMN, X_BYTES - 1, 6, now.position, 4), BOUNDARY_REFUSED_BITS, 6);
    REFUSED(boundary_column_step(now.file + X_COLUMN, X_BYTES, 2049, now.position, 4), BOUNDARY_REFUSED_MANY);
    REFUSED(boundary_column_step(now.file + X_COLUMN, X_BYTES, 6, now.position, 3), BOUNDARY_REFUSED_ROOM);
    now.position[2] = 65;
    kept = now;
    REFUSED_AT(boundary_column_step(now.file + X_COLUMN, X_BYTES, 6, now.position, 4), BOUNDARY_REFUSED_WIDTH, 0);
}

/* ---- fetch */

static uint64_t fetch(uint64_t place, size_t about, size_t lens, size_t xs, size_t ys)
{
    return boundary_fetch(now.file, SAMPLE, place, now.about, about, now.lens, lens, now.xs, xs, now.ys, ys);
}

static void fetching(void)
{
    static const uint64_t polygon[4] = {101, 3, 1, 5}, empty[4] = {103, 0, 0, 0};
    struct page p = first_page();
    write_sample();
    REFUSED(fetch(4, 6, 8, 8, 8), BOUNDARY_REFUSED_PLACE);
    REFUSED(fetch(UINT64_MAX, 0, 0, 0, 0), BOUNDARY_REFUSED_PLACE);
    REFUSED(fetch(0, 3, 8, 8, 8), BOUNDARY_REFUSED_ROOM);
    REFUSED(fetch(0, 6, 0, 8, 8), BOUNDARY_REFUSED_ROOM);
    REFUSED(fetch(0, 6, 8, 4, 8), BOUNDARY_REFUSED_ROOM);
    REFUSED(fetch(0, 6, 8, 8, 4), BOUNDARY_REFUSED_ROOM);
    memcpy(kept.about, polygon, sizeof polygon);
    kept.lens[0] = 5;
    memcpy(kept.xs, p.xs, 5 * sizeof p.xs[0]);
    memcpy(kept.ys, p.ys, 5 * sizeof p.ys[0]);
    SAYS(fetch(0, 6, 8, 8, 8), 5);
    memcpy(kept.about, empty, sizeof empty);
    SAYS(fetch(3, 4, 0, 0, 0), 0);
    now.file[SECOND_TYPES] = 7;
    kept = now;
    SAYS(fetch(3, 4, 0, 0, 0) >> 32, BOUNDARY_REFUSED_PARTS);
}

/* ---- where in the page: the column and the value of a refusal */

/* Six equal values at width 3: the entries start at bit 72 and take three bits each, so they end at bit 87 of 88. */
#define STEPS_BYTES 11
static uint8_t steps[STEPS_BYTES + 1], wide_steps[STEPS_BYTES], filled_steps[STEPS_BYTES];

/* The x column of the sample's first page has width 1. Its values 2, 4 and 5 stand behind a marker each: value 2 from bit 73 on, value 4 from 139 on
 * and value 5 from 204 on, in 65 bits each. */
static uint8_t jumps[X_BYTES + 1];

/* A column of six values that is refused, by which number and at which value. */
struct faulty {
    const uint8_t *bytes;
    size_t len;
    enum boundary_refusal number;
    uint32_t index;
};

static const struct faulty faults[] = {
    {wide_steps, STEPS_BYTES, BOUNDARY_REFUSED_WIDTH, 0},
    {wide_steps, 1, BOUNDARY_REFUSED_WIDTH, 0},
    {steps, 0, BOUNDARY_REFUSED_BITS, 0},                        /* no width */
    {steps, 1, BOUNDARY_REFUSED_BITS, 0},                        /* no first pattern, and one that is cut */
    {steps, 8, BOUNDARY_REFUSED_BITS, 0},
    {steps, 9, BOUNDARY_REFUSED_BITS, 1},                        /* an entry that is not there, and one of which two bits of three are */
    {steps, 10, BOUNDARY_REFUSED_BITS, 3},
    {jumps, 10, BOUNDARY_REFUSED_BITS, 2},                       /* cut behind a marker: 6 bits of 64, 62 and so on */
    {jumps, 17, BOUNDARY_REFUSED_BITS, 2},
    {jumps, 18, BOUNDARY_REFUSED_BITS, 4},
    {jumps, 33, BOUNDARY_REFUSED_BITS, 5},
    {steps, STEPS_BYTES + 1, BOUNDARY_REFUSED_BITS, X_VALUES},   /* a byte left over */
    {jumps, X_BYTES + 1, BOUNDARY_REFUSED_BITS, X_VALUES},
    {filled_steps, STEPS_BYTES, BOUNDARY_REFUSED_FILL, X_VALUES}
};
#define FAULTS (sizeof faults / sizeof faults[0])

static void make_columns(void)
{
    memset(steps, 0, sizeof steps);
    steps[0] = 3;
    memcpy(wide_steps, steps, STEPS_BYTES);
    wide_steps[0] = 65;
    memcpy(filled_steps, steps, STEPS_BYTES);
    filled_steps[STEPS_BYTES - 1] = 0x80;
    memcpy(jumps, sample + X_COLUMN, X_BYTES);
    jumps[X_BYTES] = 0;
}

/* The column read alone, and one value a call from a fresh position: both end in the same refusal. */
static void alone(const struct faulty *f)
{
    uint64_t word, given = 0;
    fresh();
    REFUSED_AT(boundary_column_read(f->bytes, f->len, X_VALUES, now.values, 8), f->number, f->index);
    memset(now.position, 0, 4 * sizeof now.position[0]);
    kept = now;
    while ((word = boundary_column_step(f->bytes, f->len, X_VALUES, now.position, 4)) == 1) {
        memcpy(kept.position, now.position, 4 * sizeof now.position[0]);
        given++;
    }
    EXPECT(tells(word, f->number, 0, BOUNDARY_COLUMN_NONE, f->index));
    EXPECT(given == f->index);
    EXPECT(same());
}

/* Puts the four low bytes of a number, lowest first. */
static void put_length(uint8_t *at, size_t length)
{
    size_t i;
    for (i = 0; i < 4; i++)
        at[i] = (uint8_t)(length >> 8 * i & 255);
}

/* Lends the sample with another column in its first page, x or y, and gives the file's length. */
static size_t lend_with(const struct faulty *f, enum boundary_column column)
{
    const size_t x = column == BOUNDARY_COLUMN_X ? f->len : X_BYTES, y = column == BOUNDARY_COLUMN_Y ? f->len : X_BYTES;
    uint8_t *at = now.file + X_COLUMN;
    fresh();
    memcpy(now.file, sample, X_COLUMN);
    put_length(now.file + FIRST_PAGE, X_COLUMN - FIRST_PAGE - 6 + x + y);
    put_length(now.file + COLUMN_LENGTHS, x);
    put_length(now.file + COLUMN_LENGTHS + 4, y);
    memcpy(at, column == BOUNDARY_COLUMN_X ? f->bytes : sample + X_COLUMN, x);
    memcpy(at + x, column == BOUNDARY_COLUMN_Y ? f->bytes : sample + X_COLUMN + X_BYTES, y);
    memcpy(at + x + y, sample + SECOND_PAGE, SAMPLE - SECOND_PAGE);
    kept = now;
    return X_COLUMN + x + y + SAMPLE - SECOND_PAGE;
}

/* The four calls that open the page of a place refuse the file that is lent, and change nothing. */
static void all_tell(size_t len, uint64_t place, enum boundary_refusal number, uint32_t page, enum boundary_column column, uint32_t index)
{
    ask(0, 0, 0, 0, 0);
    EXPECT(tells(boundary_check(now.file, len), number, page, column, index));
    EXPECT(tells(boundary_count(query, query_len, now.file, len), number, page, column, index));
    EXPECT(tells(boundary_search(query, query_len, now.file, len, now.places, 8), number, page, column, index));
    EXPECT(tells(boundary_fetch(now.file, len, place, now.about, 6, now.lens, 8, now.xs, 8, now.ys, 8), number, page, column, index));
    EXPECT(same());
}

/* Each fault of a column: alone, and as the x and the y column of a page. */
static void telling_where(void)
{
    size_t i;
    make_columns();
    for (i = 0; i < FAULTS; i++) {
        const struct faulty *f = &faults[i];
        alone(f);
        all_tell(lend_with(f, BOUNDARY_COLUMN_X), 0, f->number, 0, BOUNDARY_COLUMN_X, f->index);
        all_tell(lend_with(f, BOUNDARY_COLUMN_Y), 1, f->number, 0, BOUNDARY_COLUMN_Y, f->index);
    }
}

/* The sample with one byte changed. */
static void lend_changed(size_t at, unsigned byte)
{
    fresh();
    memcpy(now.file, sample, SAMPLE);
    now.file[at] = (uint8_t)byte;
    kept = now;
}

/* The second page, whose two columns are of two values and have a fill bit each; the x column comes first, and what is no column's has none. */
static void telling_the_page(void)
{
    lend_changed(SECOND_X, 65);
    all_tell(SAMPLE, 2, BOUNDARY_REFUSED_WIDTH, 1, BOUNDARY_COLUMN_X, 0);
    now.file[SECOND_Y] = 65;
    kept = now;
    all_tell(SAMPLE, 2, BOUNDARY_REFUSED_WIDTH, 1, BOUNDARY_COLUMN_X, 0);
    lend_changed(SECOND_Y, 65);
    all_tell(SAMPLE, 3, BOUNDARY_REFUSED_WIDTH, 1, BOUNDARY_COLUMN_Y, 0);
    lend_changed(SECOND_Y - 1, sample[SECOND_Y - 1] | 0x80u);
    all_tell(SAMPLE, 2, BOUNDARY_REFUSED_FILL, 1, BOUNDARY_COLUMN_X, 2);
    lend_changed(SECOND_Y + 15, sample[SECOND_Y + 15] | 0x80u);
    all_tell(SAMPLE, 2, BOUNDARY_REFUSED_FILL, 1, BOUNDARY_COLUMN_Y, 2);
    lend_changed(SECOND_TYPES, 7);
    all_tell(SAMPLE, 2, BOUNDARY_REFUSED_PARTS, 1, BOUNDARY_COLUMN_NONE, 0);
    now.file[SECOND_X] = 65;
    kept = now;
    all_tell(SAMPLE, 2, BOUNDARY_REFUSED_PARTS, 1, BOUNDARY_COLUMN_NONE, 0);
}

/* A step from a position that no call handed back is refused at that value. */
static void step_tells(const uint8_t *column, uint64_t place, uint64_t given, uint64_t width, enum boundary_refusal number, uint32_t index)
{
    fresh();
    now.position[0] = place;
    now.position[1] = given;
    now.position[2] = width;
    kept = now;
    REFUSED_AT(boundary_column_step(column, STEPS_BYTES, X_VALUES, now.position, 4), number, index);
}

static void telling_of_made_up_positions(void)
{
    step_tells(steps, 72, 3, 65, BOUNDARY_REFUSED_WIDTH, 0);
    step_tells(steps, 89, 3, UINT64_MAX, BOUNDARY_REFUSED_WIDTH, 0);
    /* a place past the bytes: the lesser of what was given and what there is */
    step_tells(steps, 89, 2, 3, BOUNDARY_REFUSED_BITS, 2);
    step_tells(steps, 89, 6, 3, BOUNDARY_REFUSED_BITS, X_VALUES);
    step_tells(steps, 89, 9, 3, BOUNDARY_REFUSED_BITS, X_VALUES);
    step_tells(steps, UINT64_MAX, UINT64_MAX, 64, BOUNDARY_REFUSED_BITS, X_VALUES);
    /* bits lacking for an entry, and behind a marker */
    step_tells(steps, 86, 4, 3, BOUNDARY_REFUSED_BITS, 4);
    step_tells(steps, 88, 1, 1, BOUNDARY_REFUSED_BITS, 1);
    step_tells(steps, 80, 5, 0, BOUNDARY_REFUSED_BITS, 5);
    /* bytes left over, and the fill bit */
    step_tells(steps, 80, 6, 3, BOUNDARY_REFUSED_BITS, X_VALUES);
    step_tells(steps, 72, UINT64_C(1) << 32, 3, BOUNDARY_REFUSED_BITS, X_VALUES);
    step_tells(filled_steps, 87, 6, 3, BOUNDARY_REFUSED_FILL, X_VALUES);
    step_tells(filled_steps, 87, 5000, 3, BOUNDARY_REFUSED_FILL, X_VALUES);
}

/* The greatest index there is, of 2,048 equal values at width 1: each entry is one bit, and the last stands at bit 2,118 of 2,120. */
static void telling_the_greatest(void)
{
    static uint8_t column[266];
    static uint64_t room[BOUNDARY_MOST_VALUES];
    column[0] = 1;
    EXPECT(boundary_column_read(column, 265, BOUNDARY_MOST_VALUES, room, BOUNDARY_MOST_VALUES) == BOUNDARY_MOST_VALUES);
    EXPECT(tells(boundary_column_read(column, 266, BOUNDARY_MOST_VALUES, room, BOUNDARY_MOST_VALUES), BOUNDARY_REFUSED_BITS, 0, BOUNDARY_COLUMN_NONE,
                 BOUNDARY_MOST_VALUES));
    EXPECT(tells(boundary_column_read(column, 264, BOUNDARY_MOST_VALUES, room, BOUNDARY_MOST_VALUES), BOUNDARY_REFUSED_BITS, 0, BOUNDARY_COLUMN_NONE, 2041));
    column[264] = 0x80;
    EXPECT(tells(boundary_column_read(column, 265, BOUNDARY_MOST_VALUES, room, BOUNDARY_MOST_VALUES), BOUNDARY_REFUSED_FILL, 0, BOUNDARY_COLUMN_NONE,
                 BOUNDARY_MOST_VALUES));
}

/* Reads the bytes that the sample file should have. */
static int read_sample(const char *path)
{
    FILE *f = fopen(path, "rb");
    int whole;
    if (f == NULL)
        return 0;
    whole = fread(sample, 1, SAMPLE, f) == SAMPLE && fgetc(f) == EOF;
    fclose(f);
    return whole;
}

int main(int argc, char **argv)
{
    if (argc != 2 || !read_sample(argv[1])) {
        printf("usage: calls SAMPLE, a file of %d bytes\n", SAMPLE);
        return 1;
    }
    taking_apart();
    writer_states();
    pages_refused();
    checking();
    searching();
    searching_past_damage();
    writing_columns();
    columns_refused();
    reading_in_place();
    fetching();
    telling_where();
    telling_the_page();
    telling_of_made_up_positions();
    telling_the_greatest();
    printf("%u checks, %u failed\n", checks, failed);
    return failed == 0 && checks > 0 ? 0 : 1;
}
