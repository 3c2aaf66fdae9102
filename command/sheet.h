/* sheet.h: what stands around a map: paper, frame, title, key, scale; and the query drawn on it. */
#ifndef SHEET_H
#define SHEET_H

#include <stdbool.h>
#include <stdint.h>

#include "picture.h"
#include "query.h"

/* What the title says. */
struct sheet {
    const char *name; /* of the file */
    uint32_t hits, shapes;
    const struct query *query;
    bool blank; /* whether no shape has a vertex */
};

/* Opens the document: its head, paper, frame and title. */
void sheet_open(const struct picture *picture, const struct sheet *sheet);

/* Draws the query: a window as a dashed rectangle, a spot as a cross in a ring. */
void sheet_query(const struct picture *picture, const struct query *query);

/* Draws the scale and the key, and closes the document. */
void sheet_close(const struct picture *picture, const struct sheet *sheet);

#endif
