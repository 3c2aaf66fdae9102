/* Whether ours and plain answer the same on boundary files, sound and damaged. */
#ifndef DAMAGE_H
#define DAMAGE_H

#include "page.h"

/* A boundary file of at least one page, under a name: its bytes, with SPARE bytes of room behind them, and what it has. The extent is the box
 * of all pages, and the bodies are those of the pages. */
enum { SPARE = 16 };

struct file {
    const char *name;
    uint8_t *bytes;
    size_t len, pages, shapes, vertices;
    struct box extent;
    const uint8_t *bodies[MOST_PAGES];
};

/* How many answers of the check had each number. */
struct seen {
    unsigned by_number[17];
};

/* Ends the run with a message and status 1 where the two differ in an answer: on the file, and on about so many damaged copies of it, or of a
 * single page of it whose vertices were changed before they were written again, and on files at the limits of the format. */
void same_answers(struct file *f, size_t copies, struct seen *seen);

#endif
