/* The column read one value a call, in C. The file that includes this has its own `window(s, len, at)`, the 64 bits from a place on, above. */
#ifndef STEPS_H
#define STEPS_H

#include "rules.h"

/* Where a reader of one value a call stands: the place of the next entry, how many values were given, the width, and the last value. */
struct position {
    size_t at, given;
    uint64_t width, last;
};

/* What a call gives: a value with the next position, or, with the position as it came, the end or a refusal. */
struct answer {
    enum { VALUE, END, NO } kind;
    unsigned number;
    uint64_t value;
    struct position next;
};

static inline struct answer no_value(struct position p, unsigned number)
{
    return (struct answer){number == 0 ? END : NO, number, 0, p};
}

/* The first value, with none given. */
static inline struct answer first_step(const uint8_t *s, size_t len, size_t n, struct position p)
{
    unsigned no = judged(s, len, n, n);
    if (no != 0 || n == 0)
        return no_value(p, no);
    uint64_t v = load(s + 1);
    return (struct answer){VALUE, 0, v, {ENTRIES, 1, s[0], v}};
}

/* One value after some were given, or the end, or a refusal; any position is taken. */
static inline struct answer next_step(const uint8_t *s, size_t len, size_t n, struct position p)
{
    if (n > MOST)
        return no_value(p, MANY);
    if (p.given == 0)
        return first_step(s, len, n, p);
    size_t end = 8 * len;
    if (p.width > 64)
        return no_value(p, WIDTH);
    if (p.at > end)
        return no_value(p, BITS);
    if (p.given >= n)
        return no_value(p, ended(s, len, p.at));
    if (end - p.at < p.width)
        return no_value(p, BITS);
    uint64_t m = marker((unsigned)p.width), z = p.width == 0 ? 0 : window(s, len, p.at) & m;
    p.at += p.width;
    if (z < m) {
        p.last += unzigzag(z);
    } else {
        if (end - p.at < 64) {
            p.at -= p.width;
            return no_value(p, BITS);
        }
        p.last = window(s, len, p.at);
        p.at += 64;
    }
    p.given++;
    return (struct answer){VALUE, 0, p.last, p};
}

/* The sum of the values of a run of calls from a fresh position. */
static uint64_t sum_of_steps(const uint8_t *s, size_t len, size_t n)
{
    struct position p = {0, 0, 0, 0};
    uint64_t sum = 0;
    for (size_t calls = 0; calls <= n; calls++) {
        struct answer a = next_step(s, len, n, p);
        if (a.kind != VALUE)
            break;
        sum += a.value;
        p = a.next;
    }
    return sum;
}

#endif
