/* The rules of a column that every C version states the same way. Bytes are loaded and stored as words, so all of it is for little-endian
 * machines. */
#ifndef RULES_H
#define RULES_H

#include "column.h"
#include <string.h>

/* The bit place of the first entry. */
enum { ENTRIES = 72 };

/* The marker of width w: w ones. */
static inline uint64_t marker(unsigned w)
{
    return w == 0 ? 0 : ~(uint64_t)0 >> (64 - w);
}

/* The zigzag of the step from a to v, wrapped at 64 bits. */
static inline uint64_t zigzag(uint64_t a, uint64_t v)
{
    uint64_t d = v - a;
    return (d << 1) ^ (0 - (d >> 63));
}

/* The wrapped step of a zigzag. */
static inline uint64_t unzigzag(uint64_t z)
{
    return (z >> 1) ^ (0 - (z & 1));
}

/* Eight bytes as a word, and a word as eight bytes. */
static inline uint64_t load(const uint8_t *s)
{
    uint64_t x;
    memcpy(&x, s, 8);
    return x;
}

static inline void store(uint8_t *s, uint64_t x)
{
    memcpy(s, &x, 8);
}

/* What a read refuses before it looks at the entries, in the order of the rules; 0 where it refuses nothing yet. */
static inline unsigned judged(const uint8_t *s, size_t len, size_t n, size_t room)
{
    if (n > MOST)
        return MANY;
    if (room < n)
        return ROOM;
    if (n == 0)
        return len == 0 ? 0 : BITS;
    if (len == 0)
        return BITS;
    if (s[0] > 64)
        return WIDTH;
    return 8 * len < ENTRIES ? BITS : 0;
}

/* The rules of the end, where the entries end at a place inside the bytes: no whole byte follows, and the bits that follow are 0. */
static inline unsigned ended(const uint8_t *s, size_t len, size_t at)
{
    if (8 * len - at >= 8)
        return BITS;
    return at < 8 * len && s[at / 8] >> at % 8 != 0 ? FILL : 0;
}

#endif
