/* The column in C as fast as it was got, with the same promise as ours: a refused read or write leaves the room as it was. The read decodes
 * into a scratch and copies; while 17 bytes are left an entry is sure to lie inside, and nothing is tested. The write counts the steps by the
 * width they need in one walk, and stores whole words. */
#include "rules.h"

/* Where a walk stands: the place of the next entry, how many values were given, and the last value. */
struct walk {
    size_t at, given;
    uint64_t last;
};

/* The 64 bits from bit place at on, where nine bytes are there. */
static inline uint64_t nine(const uint8_t *s, size_t at)
{
    const uint8_t *p = s + at / 8;
    unsigned k = at % 8;
    return load(p) >> k | (uint64_t)p[8] << 1 << (63 - k);
}

/* One entry of width w, where 17 bytes are there from its first one on. Up to width 56 it lies in the eight bytes that begin there. */
static inline struct walk inside(const uint8_t *s, struct walk g, unsigned w, uint64_t m, int narrow)
{
    uint64_t z = (narrow ? load(s + g.at / 8) >> g.at % 8 : nine(s, g.at)) & m;
    g.at += w;
    if (__builtin_expect(z < m, 1)) {
        g.last += unzigzag(z);
    } else {
        g.last = nine(s, g.at);
        g.at += 64;
    }
    g.given++;
    return g;
}

/* Gives values as long as entries are sure to lie inside: as many at a time as would, were each of them 128 bits long. */
static inline struct walk fill_inside(const uint8_t *s, size_t len, size_t n, unsigned w, int narrow, struct walk g, uint64_t *out)
{
    if (len < 17)
        return g;
    uint64_t m = marker(w);
    size_t most = 8 * (len - 17);
    while (g.given < n && g.at <= most) {
        size_t sure = (most - g.at) / 128 + 1;
        size_t stop = n - g.given < sure ? n : g.given + sure;
        while (g.given < stop) {
            g = inside(s, g, w, m, narrow);
            out[g.given - 1] = g.last;
        }
    }
    return g;
}

/* The 64 bits from bit place at on, a place inside at least eight bytes; past the end they are 0. */
static inline uint64_t window(const uint8_t *s, size_t len, size_t at)
{
    size_t i = at / 8;
    if (i + 9 <= len)
        return nine(s, at);
    return load(s + len - 8) >> 8 * (i + 8 - len) >> at % 8;
}

/* Gives the rest of n values, with a test for the end at each; n is not reached where the bits end before. */
static inline struct walk fill_rest(const uint8_t *s, size_t len, size_t n, unsigned w, struct walk g, uint64_t *out)
{
    uint64_t m = marker(w);
    size_t end = 8 * len;
    for (; g.given < n && end - g.at >= w; out[g.given++] = g.last) {
        uint64_t z = window(s, len, g.at) & m;
        if (z < m) {
            g.last += unzigzag(z);
            g.at += w;
        } else {
            if (end - g.at - w < 64)
                return g;
            g.last = window(s, len, g.at + w);
            g.at += w + 64;
        }
    }
    return g;
}

/* Width 0: the values stand in full, whole bytes from the second byte on. */
static unsigned decode_full(const uint8_t *s, size_t len, size_t n, uint64_t *out)
{
    if (len != 1 + 8 * n)
        return BITS;
    memcpy(out, s + 1, 8 * n);
    return 0;
}

/* Values of a column that was judged, into a room that is long enough. */
static inline unsigned decode(const uint8_t *s, size_t len, size_t n, uint64_t *out)
{
    unsigned w = s[0];
    if (w == 0)
        return decode_full(s, len, n, out);
    struct walk g = {ENTRIES, 1, load(s + 1)};
    out[0] = g.last;
    g = w <= 56 ? fill_inside(s, len, n, w, 1, g, out) : fill_inside(s, len, n, w, 0, g, out);
    g = fill_rest(s, len, n, w, g, out);
    return g.given < n ? BITS : ended(s, len, g.at);
}

uint64_t tuned_decode(const uint8_t *s, size_t len, size_t n, uint64_t *out, size_t room)
{
    unsigned no = judged(s, len, n, room);
    return no != 0 || n == 0 ? no : decode(s, len, n, out);
}

uint64_t tuned_read(const uint8_t *s, size_t len, size_t n, uint64_t *out, size_t room)
{
    uint64_t scratch[MOST];
    unsigned no = judged(s, len, n, room);
    if (no != 0 || n == 0)
        return no;
    no = decode(s, len, n, scratch);
    if (no == 0)
        memcpy(out, scratch, 8 * n);
    return no;
}

/* The least width at which z is below the marker; 65 where there is none. */
static inline unsigned width_for(uint64_t z)
{
    return z + 1 == 0 ? 65 : 64 - (unsigned)__builtin_clzll(z + 1);
}

/* The width of least size, the smallest on a tie, for at least one value. */
static unsigned best_width(const uint64_t *vs, size_t n, uint64_t *size)
{
    uint32_t needing[66] = {0};
    for (size_t i = 1; i < n; i++)
        needing[width_for(zigzag(vs[i - 1], vs[i]))]++;
    uint64_t fulls = n - 1;
    unsigned best = 0;
    *size = 64 * fulls;
    for (unsigned w = 1; w <= 64; w++) {
        fulls -= needing[w];
        uint64_t x = w * (uint64_t)(n - 1) + 64 * fulls;
        if (x < *size) {
            *size = x;
            best = w;
        }
    }
    return best;
}

/* What is being written: the next byte, and k bits below 64 that wait to be stored there. */
struct sink {
    uint8_t *next;
    uint64_t waiting;
    unsigned k;
};

/* Puts the w bits of x after those that wait; w is 1 to 64. */
static inline struct sink push(struct sink o, unsigned w, uint64_t x)
{
    uint64_t word = o.waiting | x << o.k;
    unsigned k = o.k + w;
    if (k < 64)
        return (struct sink){o.next, word, k};
    store(o.next, word);
    return (struct sink){o.next + 8, x >> 1 >> (63 - o.k), k - 64};
}

/* Stores the bytes that the waiting bits take. */
static void finish(struct sink o)
{
    for (; o.k > 0; o.k = o.k < 8 ? 0 : o.k - 8) {
        *o.next++ = (uint8_t)o.waiting;
        o.waiting >>= 8;
    }
}

/* Width 0: the values in full. */
static void put_full(const uint64_t *vs, size_t n, uint8_t *out)
{
    out[0] = 0;
    memcpy(out + 1, vs, 8 * n);
}

/* The column at a width over 0. */
static void put(const uint64_t *vs, size_t n, unsigned w, uint8_t *out)
{
    uint64_t m = marker(w);
    struct sink o = push((struct sink){out, w, 8}, 64, vs[0]);
    for (size_t i = 1; i < n; i++) {
        uint64_t z = zigzag(vs[i - 1], vs[i]);
        if (z < m)
            o = push(o, w, z);
        else
            o = push(push(o, w, m), 64, vs[i]);
    }
    finish(o);
}

/* Puts the column of at least one value at width w; where every value stands in full it is a copy. */
static void put_column(const uint64_t *vs, size_t n, unsigned w, uint8_t *out, size_t bytes)
{
    (void)bytes;
    if (w == 0)
        put_full(vs, n, out);
    else
        put(vs, n, w, out);
}

#include "writes.h"

uint64_t tuned_write(const uint64_t *vs, size_t n, uint8_t *out, size_t room)
{
    return write_column(vs, n, out, room);
}

#include "steps.h"

uint64_t tuned_steps(const uint8_t *s, size_t len, size_t n)
{
    return sum_of_steps(s, len, n);
}
