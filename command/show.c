/* show.c: 'boundary show FILE PLACE [--wkt | --geojson]', one shape. */
#include <stdio.h>
#include <stdlib.h>

#include "asked.h"
#include "fetched.h"
#include "forms.h"
#include "memory.h"
#include "refusal.h"
#include "subcommands.h"

/* Prints a shape in a form. */
static void print_shape(const struct shape *shape, enum form form)
{
    switch (form) {
    case FORM_WKT:
        wkt_print(shape);
        break;
    case FORM_GEOJSON:
        geojson_print(shape);
        break;
    default:
        plain_print(shape);
    }
}

/* Shows the shape that is asked for. */
static enum status show_asked(const struct source *source, const struct asked *asked)
{
    struct shape shape;
    struct fetched *rooms = memory_take(1, sizeof *rooms);
    if (rooms == NULL)
        return STATUS_WRONG;
    enum status status = STATUS_GOOD;
    uint64_t word = fetched_at(rooms, source, asked->place, &shape);
    if (BOUNDARY_NUMBER(word) == 0) {
        print_shape(&shape, asked->form);
    } else {
        refusal_print(stderr, source, word);
        status = refusal_status(word);
    }
    free(rooms);
    return status;
}

enum status show_run(int count, char **words)
{
    struct asked asked;
    struct source source;
    if (!asked_read(&asked, count, words, TAKES_PLACE) || !source_open(&source, asked.file))
        return STATUS_WRONG;
    enum status status = show_asked(&source, &asked);
    source_close(&source);
    return status;
}
