/* Boundary files made in memory, sound or not, for the tests of the plain version: shape by shape, part by part, page by page. */
#ifndef MAKE_H
#define MAKE_H

#include "page.h"

/* The page that is being made. Its box is that of its vertices until a test sets another one after `box_up`. */
struct draft {
    size_t shapes, vertices, parts;
    double box[4];
    uint32_t registers[MOST_SHAPES + 1];
    uint8_t types[MOST_SHAPES + 1];
    uint16_t part_counts[MOST_SHAPES + 1], part_lengths[MOST + 1];
    uint64_t x[MOST + 1], y[MOST + 1];
};

/* A file: room for it, and its length so far. */
struct made {
    size_t len, pages, shapes;
    uint8_t bytes[1 << 17];
};

/* Puts a number of so many bytes at the end. */
void put_number(struct made *f, size_t bytes, uint64_t x);

/* Begins a file with its first block, and ends it with its last one. */
void begin(struct made *f);
void end(struct made *f);

/* A new shape of the page, with no part yet. */
void shape(struct draft *d, uint32_t number, unsigned type);

/* A new part of the page's last shape: n vertices, x and y in turn. */
void part(struct draft *d, size_t n, const double *xy);

/* Sets the page's box to that of its vertices, the first met among equal values; what is not finite is passed over. */
void box_up(struct draft *d);

/* Puts the page at the end of the file. */
void put_page(struct made *f, const struct draft *d);

/* The sample file of the format's description. */
void sample(struct made *f);

/* A file of three pages: shapes of each type, with a hole, a second polygon and -0 among them; two empty shapes alone; one Point at 0. */
void mixture(struct made *f);

/* A query's block of 0, 2 or 4 floats, and its length; the room has QUERY_ROOM bytes. */
enum { QUERY_ROOM = HEAD + 32 };
size_t put_query(uint8_t *room, size_t floats, const double *values);

#endif
