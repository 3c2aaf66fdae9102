/* Ours, plain and tuned held against each other on a column and on damaged versions of it. */
#include "agree.h"
#include <stdio.h>
#include <stdlib.h>
#include <string.h>

/* What a lent room holds before each call, and how many elements behind it are looked at too. */
enum { BEFORE = 0xA5, MORE = 3 };

/* The column that is looked at, for the message. */
static const struct set *where_set;
static size_t where_column;

/* Ends the run where a fact does not hold. */
static void expect(int holds, const char *what)
{
    if (holds)
        return;
    fprintf(stderr, "bench: the versions differ on column %zu of '%s': %s\n", where_column, where_set->name, what);
    exit(1);
}

/* Whether all of some bytes are as they were before the call. */
static int untouched(const void *p, size_t bytes)
{
    const uint8_t *b = p;
    for (size_t i = 0; i < bytes; i++)
        if (b[i] != BEFORE)
            return 0;
    return 1;
}

/* One write by each version, into rooms of the same size. */
static void same_write(const uint64_t *vs, size_t n, size_t room)
{
    static uint8_t ours[MOST_BYTES + MORE], plain[MOST_BYTES + MORE], tuned[MOST_BYTES + MORE];
    size_t held = room + MORE;
    memset(ours, BEFORE, held);
    memset(plain, BEFORE, held);
    memset(tuned, BEFORE, held);
    uint64_t a = measure_write(vs, n, ours, room), b = plain_write(vs, n, plain, room), c = tuned_write(vs, n, tuned, room);
    expect(a == b, "answers of the write, ours and plain");
    expect(a == c, "answers of the write, ours and tuned");
    size_t size = a < REFUSED(1) ? a : 0;
    expect(memcmp(ours, plain, size) == 0, "bytes written, ours and plain");
    expect(memcmp(ours, tuned, size) == 0, "bytes written, ours and tuned");
    expect(untouched(ours + size, held - size), "the room that our write leaves");
    expect(untouched(plain + size, held - size), "the room that the plain write leaves");
    expect(untouched(tuned + size, held - size), "the room that the tuned write leaves");
}

/* One read by each version, and both decodings, into rooms of the same size; gives the answer. */
static uint64_t same_read(const uint8_t *s, size_t len, size_t n, size_t room)
{
    enum { LENT = MOST + 2 * MORE };
    static uint64_t ours[LENT], plain[LENT], tuned[LENT], ours_own[LENT], tuned_own[LENT];
    size_t held = 8 * (room + MORE);
    memset(ours, BEFORE, held);
    memset(plain, BEFORE, held);
    memset(tuned, BEFORE, held);
    memset(ours_own, BEFORE, held);
    memset(tuned_own, BEFORE, held);
    uint64_t no = measure_read(s, len, n, ours, room);
    expect(no == plain_read(s, len, n, plain, room), "answers of the read, ours and plain");
    expect(no == tuned_read(s, len, n, tuned, room), "answers of the read, ours and tuned");
    expect(no == measure_decode(s, len, n, ours_own, room), "answers of our read and our decode");
    expect(no == tuned_decode(s, len, n, tuned_own, room), "answers of the read and the tuned decode");
    size_t given = no == 0 ? n : 0;
    expect(memcmp(ours, plain, 8 * given) == 0, "values, ours and plain");
    expect(memcmp(ours, tuned, 8 * given) == 0, "values, ours and tuned");
    expect(memcmp(ours, ours_own, 8 * given) == 0, "values, our read and our decode");
    expect(memcmp(ours, tuned_own, 8 * given) == 0, "values, ours and tuned decode");
    expect(untouched(ours + given, held - 8 * given), "the room that our read leaves");
    expect(untouched(tuned + given, held - 8 * given), "the room that the tuned read leaves");
    uint64_t sum = measure_steps(s, len, n);
    expect(sum == plain_steps(s, len, n), "sums of the values one by one, ours and plain");
    expect(sum == tuned_steps(s, len, n), "sums of the values one by one, ours and tuned");
    return no;
}

/* The column with a count, a room or a length that is wrong by a little. */
static void off_by_little(const struct column *c, uint8_t *s)
{
    expect(same_read(s, c->len, MOST + 1, c->n) == MANY, "too many values are 3");
    if (c->n > 0)
        expect(same_read(s, c->len, c->n, c->n - 1) == ROOM, "a room too small is 2");
    if (c->n > 1)
        same_read(s, c->len, c->n - 1, c->n);
    if (c->n < MOST)
        same_read(s, c->len, c->n + 1, c->n + 1);
    for (size_t cut = 1; cut <= 18 && cut <= c->len; cut++)
        expect(same_read(s, c->len - cut, c->n, c->n) == BITS, "too few bytes are 9");
    expect(same_read(s, c->len + 1, c->n, c->n) == BITS, "a byte too many is 9");
}

/* The column with a width or a bit that is not its own. */
static void with_wrong_bits(const struct column *c, uint8_t *s)
{
    if (c->len == 0)
        return;
    for (unsigned k = 0; k < 8; k++) {
        size_t at = k == 0 ? 8 * c->len - 1 : any() % (8 * c->len);
        s[at / 8] ^= (uint8_t)(1 << at % 8);
        same_read(s, c->len, c->n, c->n);
        s[at / 8] ^= (uint8_t)(1 << at % 8);
    }
    uint8_t width = s[0];
    s[0] = 65;
    expect(same_read(s, c->len, c->n, c->n) == WIDTH, "a width over 64 is 8");
    s[0] = (uint8_t)(any() % 65);
    same_read(s, c->len, c->n, c->n);
    s[0] = width;
}

void agree(const struct set *set)
{
    static uint8_t s[MOST_BYTES + 1], bytes[MOST_BYTES];
    where_set = set;
    for (where_column = 0; where_column < set->count; where_column++) {
        const struct column *c = &set->columns[where_column];
        memset(s, 0, sizeof s);
        memcpy(s, c->bytes, c->len);
        expect(same_read(s, c->len, c->n, c->n + MORE) == 0, "a sound column is read");
        off_by_little(c, s);
        with_wrong_bits(c, s);
        size_t size = tuned_write(c->vs, c->n, bytes, sizeof bytes);
        same_write(c->vs, c->n, size);
        if (size > 0)
            same_write(c->vs, c->n, size - 1);
    }
}
