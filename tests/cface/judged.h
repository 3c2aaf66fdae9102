/* judged.h: a call is made in a floating-point mode, and judged: its answer, all that is lent, and the control bits and
 * flags of the machine. All that is lent stands in one struct with guards between. Before a call its right contents are
 * put in `kept`, after it they must be just those: so a stray write is seen wherever it falls. */
#ifndef JUDGED_H
#define JUDGED_H

#include "boundary.h"
#include "modes.h"
#include "right.h"

#include <signal.h>
#include <stdio.h>
#include <stdlib.h>

#define GUARD 4

/* All that is lent. The page and the query are only read. */
struct lent {
    uint64_t guard0[GUARD], writer[6];
    uint64_t guard1[GUARD], position[6];
    uint64_t guard2[GUARD], values[VALUES + 1];
    uint64_t guard3[GUARD], about[6], guard4[GUARD], xs[12], guard5[GUARD], ys[12];
    uint64_t guard6[GUARD];
    uint32_t places[4];
    uint64_t guard7[GUARD];
    uint16_t lens[4];
    uint64_t guard8[GUARD];
    uint8_t column[BOUNDARY_COLUMN_ROOM(VALUES)];
    uint64_t guard9[GUARD];
    uint8_t file[512];
    uint64_t guard10[GUARD];
    struct page page;
    uint8_t query[BOUNDARY_QUERY_ROOM];
};

static struct lent now, kept;
static size_t file_len, query_len;
static unsigned long checks, failed;

/* The mode in which calls are made, and the flags before them. Where it is null, they are made as the program stands. */
static const struct mode *mode;
static uint64_t flags_before;

/* The control bits and flags of the program outside of calls, which are those of its start. */
static struct fp own;

/* What is being made, for who reads of a failure; and the part of which a failure was shown last. */
static const char *part, *call_made, *shown;

/* Counts a check. Says whether it is to be shown, and begins its line: of each part the first that fails is. */
static int fails(int holds)
{
    checks++;
    if (holds)
        return 0;
    failed++;
    if (shown == part)
        return 0;
    shown = part;
    printf("modes: %s, flags %s: %s: %s ", mode == NULL ? "as built" : mode->name,
           mode == NULL ? "as they come" : flags_before == 0 ? "clear" : "set", part, call_made);
    return 1;
}

/* A signal comes from within a call alone, so it may print. */
static void signalled(int number)
{
    fp_set(own);
    shown = NULL;
    (void)fails(0);
    printf("raised signal %d\n", number);
    fflush(stdout);
    _Exit(1);
}

/* Just before a call: sets the mode, and gives what then stands there. */
static struct fp enter(void)
{
    if (mode != NULL) {
        struct fp to;
        to.control = mode->control;
        to.flags = flags_before;
        fp_set(to);
    }
    return fp_now();
}

/* Just after a call: gives what stands there, and sets what is the program's own where a mode was set. */
static struct fp leave(void)
{
    struct fp found = fp_now();
    if (mode != NULL)
        fp_set(own);
    return found;
}

/* A fault is reported once: what follows goes on from what is right. */
static void judge(uint64_t answer, uint64_t right, struct fp before, struct fp after)
{
    if (fails(answer == right))
        printf("answered %llx, right is %llx\n", (unsigned long long)answer, (unsigned long long)right);
    if (fails(before.control == after.control && before.flags == after.flags))
        printf("found control and flags %llx %llx, and left %llx %llx\n", (unsigned long long)before.control,
               (unsigned long long)before.flags, (unsigned long long)after.control, (unsigned long long)after.flags);
    if (fails(memcmp(&now, &kept, sizeof now) == 0))
        printf("left what was lent to it other than is right\n");
    now = kept;
}

/* The call answers what is right, in the mode. Every call is made here. */
#define TRY(right, call)                           \
    do {                                           \
        const uint64_t answer_due = (right);       \
        struct fp found;                           \
        uint64_t answer;                           \
        call_made = #call;                         \
        found = enter();                           \
        answer = (call);                           \
        judge(answer, answer_due, found, leave()); \
    } while (0)

/* The answer that is a refusal which concerns no page, or page 0. */
#define REFUSED(number) ((uint64_t)(number) << 32)

/* ---- the calls, over what is lent */

static uint64_t do_check(void)
{
    return boundary_check(now.file, file_len);
}

static uint64_t do_count(void)
{
    return boundary_count(now.query, query_len, now.file, file_len);
}

static uint64_t do_search(void)
{
    return boundary_search(now.query, query_len, now.file, file_len, now.places, 4);
}

static uint64_t do_fetch(uint64_t place)
{
    return boundary_fetch(now.file, file_len, place, now.about, 6, now.lens, 4, now.xs, 12, now.ys, 12);
}

static uint64_t do_column_write(void)
{
    return boundary_column_write(now.values, VALUES, now.column, sizeof now.column);
}

static uint64_t do_column_read(size_t len)
{
    return boundary_column_read(now.column, len, VALUES, now.values, VALUES + 1);
}

static uint64_t do_column_step(size_t len)
{
    return boundary_column_step(now.column, len, VALUES, now.position, 6);
}

static uint64_t do_open(void)
{
    return boundary_open(now.writer, 6, now.file, sizeof now.file);
}

static uint64_t do_page(void)
{
    const struct page *p = &now.page;
    return boundary_page(now.writer, 6, now.file, sizeof now.file, p->registers, p->shapes, p->types, p->shapes,
                         p->counts, p->shapes, p->lens, p->parts, p->xs, p->vertices, p->ys, p->vertices);
}

static uint64_t do_close(void)
{
    return boundary_close(now.writer, 6, now.file, sizeof now.file);
}

/* ---- what is lent to them */

/* Fills all that is lent with a pattern that means nothing. */
static void fresh(void)
{
    memset(&now, 0xA5, sizeof now);
    kept = now;
}

/* Lends a file. */
static void lend_file(const uint8_t *file, size_t len)
{
    fresh();
    memcpy(now.file, file, len);
    kept = now;
    file_len = len;
}

/* Puts a pattern in the box of the first page: at 0 least x, at 1 least y, at 2 greatest x, at 3 greatest y. */
static void put_in_box(size_t at, uint64_t pattern)
{
    put(now.file + BOX + 8 * at, pattern, 8);
    kept = now;
}

/* Lends a query of 0, 2 or 4 patterns. */
static void ask(size_t patterns, uint64_t a, uint64_t b, uint64_t c, uint64_t d)
{
    const uint64_t four[4] = {a, b, c, d};
    size_t i;
    put_head(now.query, 8 * patterns, 4);
    for (i = 0; i < patterns; i++)
        put(now.query + 6 + 8 * i, four[i], 8);
    query_len = 6 + 8 * patterns;
    kept = now;
}

static void ask_everything(void)
{
    ask(0, 0, 0, 0, 0);
}

static void ask_spot(uint64_t x, uint64_t y)
{
    ask(2, x, y, 0, 0);
}

/* ---- what calls are to answer */

/* Count and search both answer so, and no place is put. */
static void both_answer(uint64_t word)
{
    TRY(word, do_count());
    TRY(word, do_search());
}

/* Count and search hit the first shapes of the file, so many. */
static void both_hit(uint32_t hits)
{
    uint32_t i;
    TRY(hits, do_count());
    for (i = 0; i < hits; i++)
        kept.places[i] = i;
    TRY(hits, do_search());
}

/* The four calls that read a file refuse it. */
static void all_refuse(unsigned number)
{
    ask_everything();
    TRY(REFUSED(number), do_check());
    both_answer(REFUSED(number));
    TRY(REFUSED(number), do_fetch(0));
}

/* The shape at a place of the file's one page is as it was handed in, pattern for pattern. */
static void fetched(const struct page *p, size_t place)
{
    size_t i, first = 0, vertex = 0, parts, vertices = 0;
    for (i = 0; i < place; i++)
        for (parts = p->counts[i]; parts > 0; parts--)
            vertex += p->lens[first++];
    parts = p->counts[place];
    for (i = 0; i < parts; i++)
        vertices += kept.lens[i] = p->lens[first + i];
    kept.about[0] = p->registers[place];
    kept.about[1] = p->types[place];
    kept.about[2] = parts;
    kept.about[3] = vertices;
    memcpy(kept.xs, p->xs + vertex, vertices * sizeof p->xs[0]);
    memcpy(kept.ys, p->ys + vertex, vertices * sizeof p->ys[0]);
    TRY(vertices, do_fetch(place));
}

/* What a step of the writer is to leave: a state, and the right bytes up to its position. */
static void leaves(const uint8_t *right, size_t position, uint64_t pages, uint64_t shapes, uint64_t closed)
{
    kept.writer[0] = position;
    kept.writer[1] = pages;
    kept.writer[2] = shapes;
    kept.writer[3] = closed;
    memcpy(kept.file, right, position);
}

/* A file of one page is written, and has just these bytes. It is lent from then on, and is sound. */
static void written(const struct page *p, const uint8_t *right, size_t len)
{
    fresh();
    now.page = *p;
    kept = now;
    leaves(right, BEGUN, 0, 0, 0);
    TRY(0, do_open());
    leaves(right, len - ENDED, 1, p->shapes, 0);
    TRY(0, do_page());
    leaves(right, len, 1, p->shapes, 1);
    TRY(0, do_close());
    file_len = len;
    TRY(p->shapes, do_check());
}

/* The same, by the box that it is to have. */
static void written_with(const struct page *p, const uint64_t box[4])
{
    uint8_t right[sizeof now.file];
    size_t len = put_file(right, p, box);
    written(p, right, len);
}

/* The page is refused by the writer. */
static void page_refused(const struct page *p, unsigned number)
{
    fresh();
    now.page = *p;
    now.writer[0] = BEGUN;
    now.writer[1] = now.writer[2] = now.writer[3] = 0;
    kept = now;
    TRY(REFUSED(number), do_page());
}

#endif
