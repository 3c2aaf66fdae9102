/* Sets of columns that are measured together: real ones from a file, and made ones. */
#ifndef SETS_H
#define SETS_H

#include "column.h"

/* A column: n values, and the len bytes that hold them. */
struct column {
    size_t n, len;
    uint64_t *vs;
    uint8_t *bytes;
};

/* Columns under one name, and how many values they have together. */
struct set {
    char name[48];
    size_t count, values;
    struct column *columns;
};

/* The columns of a file as columns.py writes it, each in the bytes that the writer makes of it. */
struct set real_set(const char *name, const char *path);

/* Columns of n values at width w whose steps all need exactly that width; at width 0 every value stands in full. */
struct set steps_set(unsigned w, size_t n);

/* The same, but that one value in eight stands in full, at random; steps among them that would have fitted. */
struct set mixed_set(unsigned w, size_t n);

void free_set(struct set *set);

/* The next of a fixed run of numbers that look random. */
uint64_t any(void);

#endif
