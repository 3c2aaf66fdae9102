/* layout.h: the pages of a file as they lie in its bytes (docs/FORMAT.md). For a file whose frame the library has passed. Every length is looked at
 * again before it is used, so that a file that changes meanwhile gives wrong pages at worst. */
#ifndef LAYOUT_H
#define LAYOUT_H

#include <stdbool.h>
#include <stddef.h>
#include <stdint.h>

#include "source.h"

/* A page. The pointers are to its tables and columns in the file's bytes. */
struct layout_page {
    size_t block_len; /* bytes, the head of the block included */
    uint32_t shapes, vertices, parts;
    double box[4]; /* least x, least y, greatest x, greatest y; nothing where there is no vertex */
    const uint8_t *registers, *types, *counts, *lens;
    const uint8_t *x, *y;
    size_t x_len, y_len;
};

/* How far a walk over the pages has come. */
struct layout {
    const uint8_t *at;
    size_t left;
};

/* The walk before the first page. */
struct layout layout_start(const struct source *source);

/* The next page, or false where there is none. */
bool layout_next(struct layout *walk, struct layout_page *page);

/* How many pages, and how many shapes, the end of the file counts. */
uint32_t layout_pages(const struct source *source);
uint32_t layout_shapes(const struct source *source);

#endif
