/* fetched.h: one shape, fetched by the library. */
#ifndef FETCHED_H
#define FETCHED_H

#include <stdbool.h>
#include <stdint.h>

#include "boundary.h"
#include "shape.h"
#include "source.h"

/* Rooms that hold every shape. */
struct fetched {
    uint64_t about[BOUNDARY_WORDS];
    uint16_t lens[BOUNDARY_MOST_VALUES];
    uint64_t xs[BOUNDARY_MOST_VALUES], ys[BOUNDARY_MOST_VALUES];
};

/* Fetches the shape at a place into the rooms. Gives the library's answer; where it is not refused the shape is set. */
uint64_t fetched_at(struct fetched *rooms, const struct source *source, uint64_t place, struct shape *shape);

#endif
