/* asked.h: the words behind a subcommand of one file, taken apart. */
#ifndef ASKED_H
#define ASKED_H

#include <stdbool.h>
#include <stdint.h>

#include "query.h"

enum form { FORM_PLAIN, FORM_WKT, FORM_GEOJSON };

/* What a subcommand takes besides its file. */
enum takes { TAKES_NOTHING = 0, TAKES_QUERY = 1, TAKES_PLACE = 2 };

struct asked {
    const char *file;
    struct query query; /* everything, where none was given */
    uint64_t place;
    enum form form;
};

/* Takes the words apart. Where they are wrong it says so on standard error. */
bool asked_read(struct asked *asked, int count, char **words, enum takes takes);

#endif
