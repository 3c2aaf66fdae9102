/* query.h: what is asked for, and its block for the library. */
#ifndef QUERY_H
#define QUERY_H

#include <stddef.h>
#include <stdint.h>

#include "boundary.h"

enum query_kind { QUERY_EVERYTHING, QUERY_SPOT, QUERY_WINDOW };

/* A spot has x and y in `at`; a window least x, least y, greatest x, greatest y. */
struct query {
    enum query_kind kind;
    double at[4];
};

/* Writes the query's block (kind 4). Gives its length. */
size_t query_block(const struct query *query, uint8_t block[BOUNDARY_QUERY_ROOM]);

#endif
