/* shapes.h: the shapes of a file in order. A page is decoded once for all its shapes, by the library's column reader; fetching each shape by itself would
 * decode it once for each. For pages that the library has passed. */
#ifndef SHAPES_H
#define SHAPES_H

#include <stdbool.h>
#include <stdint.h>

#include "boundary.h"
#include "layout.h"
#include "shape.h"

struct shapes {
    struct layout walk;
    struct layout_page page;
    bool begun, decoded;             /* whether there is a page, and whether its lists are below */
    uint64_t first;                  /* the place of the page's first shape */
    uint32_t index, part, vertex;    /* the next shape of the page, and its first part and vertex */
    uint16_t lens[BOUNDARY_MOST_VALUES];
    uint64_t xs[BOUNDARY_MOST_VALUES], ys[BOUNDARY_MOST_VALUES];
};

/* Begins before the first shape. */
void shapes_start(struct shapes *shapes, const struct source *source);

/* The shape at a place, which is after every place asked for before. Its lists stay until the next call. Pages passed over are not decoded. False, with a
 * line on standard error, where the bytes are not what the library has passed: the file has changed meanwhile. */
bool shapes_at(struct shapes *shapes, const struct source *source, uint64_t place, struct shape *shape);

#endif
