/* modes SAMPLE: every call of boundary.h in every floating-point mode that a host program may be in, once with all flags
 * clear before the call and once with all set. In each the answer and all that is lent must be right to the bit, the
 * control bits and the flags must be what they were before, and no signal may be raised. SAMPLE is the sample file of the
 * format's description.
 *
 * What is right is written down here, or reckoned from patterns as whole numbers (right.h). No float is reckoned: this
 * program is built with -Ofast too, and is then a host whose mode was on before its first line. Such a one first makes
 * calls as it stands, and sets no mode.
 *
 * Prints how many checks were made in how many modes, and which modes this machine lacks; the status is 0 only where all
 * hold. */
#include "judged.h"

static uint8_t sample[260];

/* ---- cases that are written down in full */

/* LineString (-1,0) (5e-324,0): the greatest x of its page is the least value over 0. */
static const uint8_t subnormal_file[110] = {
    0x02, 0x00, 0x00, 0x00, 0x01, 0x00, 0x01, 0x00,                         /* edition 1 */
    0x52, 0x00, 0x00, 0x00, 0x02, 0x00, 0x01, 0x00, 0x02, 0x00, 0x01, 0x00, /* a page: 1 shape, 2 vertices, 1 part */
    0x00, 0x00, 0x00, 0x00, 0x00, 0x00, 0xF0, 0xBF,                         /* least x */
    0x00, 0x00, 0x00, 0x00, 0x00, 0x00, 0x00, 0x00,                         /* least y */
    0x01, 0x00, 0x00, 0x00, 0x00, 0x00, 0x00, 0x00,                         /* greatest x */
    0x00, 0x00, 0x00, 0x00, 0x00, 0x00, 0x00, 0x00,                         /* greatest y */
    0x07, 0x00, 0x00, 0x00, 0x02, 0x01, 0x00, 0x02, 0x00,                   /* register 7, LineString, 1 part, of 2 */
    0x11, 0x00, 0x00, 0x00, 0x0A, 0x00, 0x00, 0x00,                         /* columns of 17 and 10 bytes */
    0x00, 0x00, 0x00, 0x00, 0x00, 0x00, 0x00, 0xF0, 0xBF, 0x01, 0x00, 0x00, 0x00, 0x00, 0x00, 0x00, 0x00,
    0x01, 0x00, 0x00, 0x00, 0x00, 0x00, 0x00, 0x00, 0x00, 0x00,
    0x08, 0x00, 0x00, 0x00, 0x03, 0x00, 0x01, 0x00, 0x00, 0x00, 0x01, 0x00, 0x00, 0x00, /* the end: 1 page, 1 shape */
};

/* It is written so, and spots on its edge and beside it are told apart. */
static void subnormal_edge(void)
{
    struct page p = line_of(MINUS | ONE, 0, LEAST, 0);
    written(&p, subnormal_file, sizeof subnormal_file);
    fetched(&p, 0);
    ask_spot(LEAST, 0);
    both_hit(1);
    ask_spot(LEAST + 1, 0);
    both_answer(0);
    ask_spot(LEAST, MINUS | LEAST);
    both_answer(0);
}

/* A page box that is wrong by a subnormal alone, at each of its places, and one that is reversed by no more. */
static void subnormal_box(void)
{
    lend_file(subnormal_file, sizeof subnormal_file);
    put_in_box(2, 0);
    all_refuse(BOUNDARY_REFUSED_BOX);
    put_in_box(2, LEAST + 1);
    all_refuse(BOUNDARY_REFUSED_BOX);
    put_in_box(2, LEAST);
    put_in_box(3, LEAST);
    all_refuse(BOUNDARY_REFUSED_BOX);
    put_in_box(1, LEAST + 1);
    all_refuse(BOUNDARY_REFUSED_BOX_FORM);
    put_in_box(1, MINUS | LEAST);
    put_in_box(3, 0);
    all_refuse(BOUNDARY_REFUSED_BOX);
    put_in_box(1, 0);
    put_in_box(3, MINUS | LEAST);
    all_refuse(BOUNDARY_REFUSED_BOX_FORM);
    lend_file(sample, sizeof sample);
    put_in_box(0, MINUS | LEAST);
    all_refuse(BOUNDARY_REFUSED_BOX);
    put_in_box(0, LEAST);
    all_refuse(BOUNDARY_REFUSED_BOX);
}

/* A page box that has -0 for 0 is the same in value. */
static void zero_in_box(void)
{
    lend_file(sample, sizeof sample);
    put_in_box(0, MINUS);
    put_in_box(1, MINUS);
    TRY(4, do_check());
    ask_spot(MINUS, 0);
    both_hit(1);
}

/* Queries at the edges of the sample's first shape, and everything. */
static void sample_asked(void)
{
    lend_file(sample, sizeof sample);
    TRY(4, do_check());
    ask_spot(MINUS | LEAST, 0);
    both_answer(0);
    ask_spot(0, MINUS | LEAST);
    both_answer(0);
    ask_spot(MINUS, 0);
    both_hit(1);
    ask_spot(LEAST, LEAST);
    both_hit(1);
    ask_spot(TEN, TEN);
    both_hit(1);
    ask_spot(TEN + 1, FIVE);
    both_answer(0);
    ask(4, 0, 0, TEN, TEN);
    both_hit(1);
    ask(4, MINUS | LEAST, MINUS | LEAST, MINUS | LEAST, LEAST);
    both_answer(0);
    ask_everything();
    both_hit(4);
}

/* A window that is reversed by a subnormal alone. */
static void reversed_window(void)
{
    lend_file(sample, sizeof sample);
    ask(4, LEAST, 0, 0, 0);
    both_answer(REFUSED(BOUNDARY_REFUSED_QUERY));
    ask(4, 0, 0, 0, MINUS | LEAST);
    both_answer(REFUSED(BOUNDARY_REFUSED_QUERY));
    ask(4, 0, LEAST + 1, 0, LEAST);
    both_answer(REFUSED(BOUNDARY_REFUSED_QUERY));
}

/* Of two zeros the writer stores the one that it met first. */
static void first_zero(void)
{
    static const uint64_t box[4] = {0, MINUS, 0, MINUS}, other_box[4] = {MINUS, 0, MINUS, 0};
    struct page p = line_of(0, MINUS, MINUS, 0);
    written_with(&p, box);
    p = line_of(MINUS, 0, 0, MINUS);
    written_with(&p, other_box);
}

/* Likewise where both come behind a subnormal, as greatest and as least. */
static void first_zero_behind(void)
{
    static const uint64_t xs[3] = {MINUS | LEAST, MINUS, 0}, ys[3] = {MINUS | LEAST, 0, MINUS};
    static const uint64_t box[4] = {MINUS | LEAST, MINUS | LEAST, MINUS, 0};
    static const uint64_t over_xs[3] = {LEAST, MINUS, 0}, over_ys[3] = {LEAST, 0, MINUS};
    static const uint64_t over_box[4] = {MINUS, 0, LEAST, LEAST};
    struct page p = page_of(2, 3, xs, ys);
    written_with(&p, box);
    p = page_of(2, 3, over_xs, over_ys);
    written_with(&p, over_box);
}

/* ---- sets of values, and what is right by whole numbers */

/* LineString (a,b) (b,a), Point (a,a), Point (b,b): written, fetched, and a spot at the first Point. */
static void two_values(uint64_t a, uint64_t b)
{
    const uint64_t xs[4] = {a, b, a, b}, ys[4] = {b, a, a, b};
    struct page p = page_of(2, 4, xs, ys);
    uint64_t box[4];
    uint32_t i;
    p.shapes = p.parts = 3;
    p.lens[0] = 2;
    for (i = 1; i < 3; i++) {
        p.registers[i] = 7 + i;
        p.types[i] = 1;
        p.counts[i] = p.lens[i] = 1;
    }
    box_of(&p, box);
    written_with(&p, box);
    for (i = 0; i < 3; i++)
        fetched(&p, i);
    ask_spot(a, a);
    both_hit(rank(a) == rank(b) ? 3 : 2);
}

/* Point (a,a), and every window from one value to another, over x and over y. */
static void windows(uint64_t a)
{
    const uint64_t box[4] = {a, a, a, a};
    struct page p = page_of(1, 1, &a, &a);
    size_t i, j;
    written_with(&p, box);
    for (i = 0; i < FINITE; i++) {
        for (j = 0; j < FINITE; j++) {
            uint64_t least = finite[i], most = finite[j];
            int in = between(least, a, most);
            uint64_t word = rank(least) > rank(most) ? REFUSED(BOUNDARY_REFUSED_QUERY) : in ? 1 : 0;
            ask(4, least, MINUS | GREATEST, most, GREATEST);
            TRY(word, do_count());
            ask(4, MINUS | GREATEST, least, GREATEST, most);
            if (in)
                kept.places[0] = 0;
            TRY(word, do_search());
        }
    }
}

/* A page of LineString (x0,y0) (x1,y1), whose box has any value at any one of its places. It is refused or not, and a
 * spot that such a box does not hold leaves the page unopened. */
static void boxes(uint64_t x0, uint64_t y0, uint64_t x1, uint64_t y1)
{
    struct page p = line_of(x0, y0, x1, y1);
    uint64_t right[4], box[4];
    size_t i, at;
    box_of(&p, right);
    written_with(&p, right);
    for (at = 0; at < 4; at++) {
        for (i = 0; i < VALUES; i++) {
            unsigned number;
            memcpy(box, right, sizeof box);
            box[at] = value(i);
            put_in_box(at, value(i));
            number = box_refusal(box, right);
            if (number != 0) {
                all_refuse(number);
            } else {
                TRY(1, do_check());
                fetched(&p, 0);
            }
            if (number == BOUNDARY_REFUSED_BOX_FORM)
                continue;
            ask_spot(value(i), right[1]);
            if (!between(box[0], value(i), box[2]) || !between(box[1], right[1], box[3]))
                TRY(0, do_count());
            else
                TRY(number != 0 ? REFUSED(number) : 1, do_count());
        }
        put_in_box(at, right[at]);
    }
}

/* A value that is not finite is refused in a page, in a file and in a query, wherever it stands. */
static void none_finite(uint64_t bad)
{
    size_t at;
    for (at = 0; at < 4; at++) {
        uint64_t four[4] = {0, MINUS | LEAST, LEAST, GREATEST}, box[4];
        uint8_t file[sizeof now.file];
        struct page p = line_of(four[0], four[1], four[2], four[3]);
        size_t len;
        box_of(&p, box);
        four[at] = bad;
        p = line_of(four[0], four[1], four[2], four[3]);
        page_refused(&p, BOUNDARY_REFUSED_FINITE);
        len = put_file(file, &p, box);
        lend_file(file, len);
        all_refuse(BOUNDARY_REFUSED_FINITE);
        lend_file(sample, sizeof sample);
        ask(4, four[0], four[1], four[2], four[3]);
        both_answer(REFUSED(BOUNDARY_REFUSED_QUERY));
        if (at < 2)
            ask_spot(four[0], four[1]);
        else
            ask_spot(four[2], four[3]);
        both_answer(REFUSED(BOUNDARY_REFUSED_QUERY));
    }
}

/* A column of every value, taken by this stride: written, read, and read one value a call. */
static void columns(size_t stride)
{
    uint64_t values[VALUES], bits = 72;
    uint8_t right[BOUNDARY_COLUMN_ROOM(VALUES)];
    size_t i, len;
    for (i = 0; i < VALUES; i++)
        values[i] = value(i * stride % VALUES);
    len = put_column(right, values, VALUES);
    fresh();
    memcpy(now.values, values, sizeof values);
    kept = now;
    memcpy(kept.column, right, len);
    TRY(len, do_column_write());
    memset(now.values, 0xA5, sizeof now.values);
    kept = now;
    memcpy(kept.values, values, sizeof values);
    TRY(VALUES, do_column_read(len));
    memset(now.position, 0, 4 * sizeof now.position[0]);
    kept = now;
    for (i = 0; i < VALUES; i++) {
        if (i > 0)
            bits += entries(values + i - 1, 2, right[0]);
        kept.position[0] = bits;
        kept.position[1] = i + 1;
        kept.position[2] = right[0];
        kept.position[3] = values[i];
        TRY(1, do_column_step(len));
    }
    TRY(0, do_column_step(len));
}

/* ---- rings */

/* A Polygon of subnormals; and rings that are closed in value, or but for a subnormal, and not in their patterns. */
static void rings_closed(void)
{
    static const uint64_t xs[4] = {0, LEAST, MINUS | LEAST, 0}, ys[4] = {LEAST, MINUS | LEAST, 0, LEAST};
    struct page p = page_of(3, 4, xs, ys);
    uint64_t box[4];
    box_of(&p, box);
    written_with(&p, box);
    fetched(&p, 0);
    p.xs[3] = MINUS;
    page_refused(&p, BOUNDARY_REFUSED_RING);
    p.xs[3] = LEAST;
    page_refused(&p, BOUNDARY_REFUSED_RING);
    p.xs[3] = 0;
    p.ys[3] = 0;
    page_refused(&p, BOUNDARY_REFUSED_RING);
}

/* A MultiPolygon of a quarter of the grid, with both zeros in its first ring, and a hole. The turns are -2^49 and 1. */
static void rings_on_grid(void)
{
    static const uint64_t xs[9] = {0, MINUS, MINUS | GRID, MINUS | GRID, 0,
                                   MINUS | TWO, MINUS | ONE, MINUS | ONE, MINUS | TWO};
    static const uint64_t ys[9] = {MINUS, MINUS | GRID, MINUS | GRID, 0, MINUS,
                                   MINUS | TWO, MINUS | TWO, MINUS | ONE, MINUS | TWO};
    struct page p = page_of(6, 9, xs, ys);
    uint64_t box[4];
    p.counts[0] = 2;
    p.parts = 2;
    p.lens[0] = 5;
    p.lens[1] = 4;
    box_of(&p, box);
    written_with(&p, box);
    fetched(&p, 0);
    ask_everything();
    both_hit(1);
}

/* A MultiPolygon with one coordinate off grid, with no turn, and with its first ring the other way. */
static void rings_refused(void)
{
    static const uint64_t off[] = {LEAST, LAST_SUBNORMAL, FIRST_NORMAL, ONE - 1, ONE + 1, GRID + 1, GREATEST};
    static const uint64_t xs[4] = {0, 0, ONE, 0}, ys[4] = {0, ONE, 0, 0}, flat[4] = {0, MINUS, MINUS, 0};
    struct page p;
    size_t i;
    for (i = 0; i < sizeof off / sizeof off[0]; i++) {
        p = page_of(6, 4, xs, ys);
        p.ys[1] = off[i];
        page_refused(&p, BOUNDARY_REFUSED_GRID);
        p.ys[1] = ONE;
        p.xs[1] = MINUS | off[i];
        page_refused(&p, BOUNDARY_REFUSED_GRID);
    }
    p = page_of(6, 4, xs, flat);
    page_refused(&p, BOUNDARY_REFUSED_TURN);
    p = page_of(6, 4, ys, xs);
    page_refused(&p, BOUNDARY_REFUSED_TURN);
}

/* ---- the modes */

#define PART(made)    \
    do {              \
        part = #made; \
        made;         \
    } while (0)

/* The cases that are written down in full. */
static void written_down(void)
{
    shown = NULL;
    PART(subnormal_edge());
    PART(subnormal_box());
    PART(zero_in_box());
    PART(sample_asked());
    PART(reversed_window());
    PART(first_zero());
    PART(first_zero_behind());
}

/* All, in the mode that is chosen. */
static void everything(void)
{
    unsigned long before = failed;
    size_t i, j;
    written_down();
    for (i = 0; i < FINITE; i++)
        for (j = 0; j < FINITE; j++)
            PART(two_values(finite[i], finite[j]));
    for (i = 0; i < FINITE; i++)
        PART(windows(finite[i]));
    PART(boxes(MINUS | ONE, 0, LEAST, MINUS));
    PART(boxes(MINUS | LEAST, LAST_SUBNORMAL, 0, FIRST_NORMAL));
    PART(boxes(0, MINUS | GREATEST, MINUS, GREATEST));
    for (i = 0; i < NOT_FINITE; i++)
        PART(none_finite(not_finite[i]));
    for (i = 1; i < VALUES; i += 4)
        PART(columns(i));
    PART(rings_closed());
    PART(rings_on_grid());
    PART(rings_refused());
    if (failed > before)
        printf("modes: %s, flags %s: %lu failed\n", mode->name, flags_before == 0 ? "clear" : "set", failed - before);
}

/* Whether this machine keeps the control bits of a mode, and the flags. */
static int keeps(const struct mode *one, uint64_t flags)
{
    struct fp found;
    mode = one;
    flags_before = flags;
    (void)enter();
    found = leave();
    return found.control == one->control && found.flags == flags;
}

/* Makes all in a mode, with the flags clear and with all set. Says 0 where this machine has no such mode. */
static int made_in(const struct mode *one)
{
    if (!keeps(one, 0) || !keeps(one, FLAGS)) {
        if (one->of_every_machine) {
            printf("modes: %s is a mode of every machine, and is not kept here\n", one->name);
            failed++;
        }
        return 0;
    }
    flags_before = 0;
    everything();
    flags_before = FLAGS;
    everything();
    return 1;
}

/* Reads the bytes of the sample file. */
static int read_sample(const char *path)
{
    FILE *f = fopen(path, "rb");
    int whole;
    if (f == NULL)
        return 0;
    whole = fread(sample, 1, sizeof sample, f) == sizeof sample && fgetc(f) == EOF;
    fclose(f);
    return whole;
}

int main(int argc, char **argv)
{
    const char *lead = "; not on this machine: ";
    size_t i, tried = 0;
    int has[MODES];
    own = fp_now();
    if (argc != 2 || !read_sample(argv[1])) {
        printf("usage: modes SAMPLE, a file of %zu bytes\n", sizeof sample);
        return 1;
    }
    if (signal(SIGFPE, signalled) == SIG_ERR)
        return 1;
#ifdef __FAST_MATH__
    if ((own.control & FAST) != FAST) {
        printf("modes: built with -Ofast, but the mode is not on\n");
        return 1;
    }
    written_down();
    tried++;
#endif
    for (i = 0; i < MODES; i++) {
        has[i] = made_in(&modes[i]);
        tried += has[i] ? 1 : 0;
    }
    printf("modes: %lu checks in %zu modes, %lu failed", checks, tried, failed);
    for (i = 0; i < MODES; i++) {
        if (!has[i]) {
            printf("%s%s", lead, modes[i].name);
            lead = "; ";
        }
    }
    printf("\n");
    return failed == 0 && checks > 0 ? 0 : 1;
}
