/* query.c: what is asked for, and its block for the library. */
#include "query.h"

#include "pattern.h"

enum { QUERY_BLOCK_KIND = 4, HEAD = 6, FLOAT = 8 };

/* How many floats a query has. */
static unsigned floats(const struct query *query)
{
    switch (query->kind) {
    case QUERY_SPOT:
        return 2;
    case QUERY_WINDOW:
        return 4;
    default:
        return 0;
    }
}

size_t query_block(const struct query *query, uint8_t block[BOUNDARY_QUERY_ROOM])
{
    unsigned count = floats(query);
    put(block, 4, (uint64_t)FLOAT * count);
    put(block + 4, 2, QUERY_BLOCK_KIND);
    for (unsigned i = 0; i < count; i++)
        put(block + HEAD + FLOAT * i, FLOAT, pattern_of(query->at[i]));
    return HEAD + (size_t)FLOAT * count;
}
