/* hits.c: the places of the shapes that a query hits. */
#include "hits.h"

#include <stdio.h>
#include <stdlib.h>

#include "boundary.h"
#include "memory.h"
#include "refusal.h"

bool hits_find(struct hits *hits, const struct source *source, const struct query *query, enum status *status)
{
    uint8_t block[BOUNDARY_QUERY_ROOM];
    size_t len = query_block(query, block);
    *status = STATUS_WRONG;
    *hits = (struct hits){.places = memory_take(BOUNDARY_MOST_SHAPES, sizeof(uint32_t))};
    if (hits->places == NULL)
        return false;
    uint64_t word = boundary_search(block, len, source->bytes, source->len, hits->places, BOUNDARY_MOST_SHAPES);
    if (BOUNDARY_NUMBER(word) != 0) {
        refusal_print(stderr, source, word);
        *status = refusal_status(word);
        hits_free(hits);
        return false;
    }
    hits->count = BOUNDARY_SAYS(word);
    return true;
}

void hits_free(struct hits *hits)
{
    free(hits->places);
    *hits = (struct hits){.count = 0};
}
