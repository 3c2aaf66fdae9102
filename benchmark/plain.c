/* The column in plain C: the rules as they stand. The read is one walk with a test for the end at each entry, and puts values straight into
 * the room, so a refused read may have written on it. The write tries each width over the whole column. */
#include "rules.h"

/* The 64 bits from bit place at on, as far as there are bytes; the rest is 0. */
static uint64_t window(const uint8_t *s, size_t len, size_t at)
{
    size_t i = at / 8;
    unsigned k = at % 8;
    if (i + 9 <= len)
        return k == 0 ? load(s + i) : load(s + i) >> k | (uint64_t)s[i + 8] << (64 - k);
    uint64_t x = 0;
    for (size_t j = i; j < len; j++)
        x |= (uint64_t)s[j] << 8 * (j - i);
    return x >> k;
}

uint64_t plain_read(const uint8_t *s, size_t len, size_t n, uint64_t *out, size_t room)
{
    unsigned no = judged(s, len, n, room);
    if (no != 0 || n == 0)
        return no;
    unsigned w = s[0];
    uint64_t m = marker(w), v = window(s, len, 8);
    size_t at = ENTRIES, end = 8 * len;
    out[0] = v;
    for (size_t i = 1; i < n; i++) {
        if (end - at < w)
            return BITS;
        uint64_t z = window(s, len, at) & m;
        at += w;
        if (z < m) {
            v += unzigzag(z);
        } else {
            if (end - at < 64)
                return BITS;
            v = window(s, len, at);
            at += 64;
        }
        out[i] = v;
    }
    return ended(s, len, at);
}

/* The bits that the entries take at width w. */
static uint64_t size_at(const uint64_t *vs, size_t n, unsigned w)
{
    uint64_t m = marker(w), fulls = 0;
    for (size_t i = 1; i < n; i++)
        fulls += zigzag(vs[i - 1], vs[i]) >= m;
    return w * (uint64_t)(n - 1) + 64 * fulls;
}

/* The width of least size, the smallest on a tie, for at least one value. */
static unsigned best_width(const uint64_t *vs, size_t n, uint64_t *size)
{
    unsigned best = 0;
    *size = size_at(vs, n, 0);
    for (unsigned w = 1; w <= 64; w++) {
        uint64_t x = size_at(vs, n, w);
        if (x < *size) {
            *size = x;
            best = w;
        }
    }
    return best;
}

/* Puts the w low bits of x at a place, over bits that are 0, and gives the place after them. */
static size_t put(uint8_t *out, size_t at, unsigned w, uint64_t x)
{
    for (unsigned done = 0; done < w;) {
        unsigned k = at % 8, part = 8 - k < w - done ? 8 - k : w - done;
        out[at / 8] |= (uint8_t)((x >> done & ((1u << part) - 1)) << k);
        done += part;
        at += part;
    }
    return at;
}

/* Puts the column of at least one value at width w into a room of exactly its bytes. */
static void put_column(const uint64_t *vs, size_t n, unsigned w, uint8_t *out, size_t bytes)
{
    memset(out, 0, bytes);
    uint64_t m = marker(w);
    size_t at = put(out, put(out, 0, 8, w), 64, vs[0]);
    for (size_t i = 1; i < n; i++) {
        uint64_t z = zigzag(vs[i - 1], vs[i]);
        at = put(out, at, w, z < m ? z : m);
        if (z >= m)
            at = put(out, at, 64, vs[i]);
    }
}

#include "writes.h"

uint64_t plain_write(const uint64_t *vs, size_t n, uint8_t *out, size_t room)
{
    return write_column(vs, n, out, room);
}

#include "steps.h"

uint64_t plain_steps(const uint8_t *s, size_t len, size_t n)
{
    return sum_of_steps(s, len, n);
}
