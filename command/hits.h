/* hits.h: the places of the shapes that a query hits. */
#ifndef HITS_H
#define HITS_H

#include <stdbool.h>
#include <stdint.h>

#include "query.h"
#include "source.h"
#include "status.h"

struct hits {
    uint32_t *places; /* ascending */
    uint32_t count;
};

/* Searches a file. Where the library refuses, or there is no memory, it says so on standard error, gives the status to end with, and there is nothing to free. */
bool hits_find(struct hits *hits, const struct source *source, const struct query *query, enum status *status);

/* Gives back the list. */
void hits_free(struct hits *hits);

#endif
