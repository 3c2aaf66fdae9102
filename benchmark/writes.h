/* The column written, in C. The file that includes this has its own `best_width(vs, n, &size)` and `put_column(vs, n, w, out, bytes)`, above. */
#ifndef WRITES_H
#define WRITES_H

#include "rules.h"

/* The number of bytes, or 2^32 times a refusal's number, which leaves the room as it was. */
static uint64_t write_column(const uint64_t *vs, size_t n, uint8_t *out, size_t room)
{
    if (n > MOST)
        return REFUSED(MANY);
    if (n == 0)
        return 0;
    uint64_t size;
    unsigned w = best_width(vs, n, &size);
    size_t bytes = (ENTRIES + size + 7) / 8;
    if (room < bytes)
        return REFUSED(ROOM);
    put_column(vs, n, w, out, bytes);
    return bytes;
}

#endif
