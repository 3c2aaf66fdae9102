/* list.c: 'boundary list FILE [QUERY]', a table of the hits. */
#include <inttypes.h>
#include <stdio.h>
#include <stdlib.h>

#include "asked.h"
#include "hits.h"
#include "layout.h"
#include "memory.h"
#include "number.h"
#include "shapes.h"
#include "subcommands.h"

enum { BOX_COLUMNS = 4 };

/* A line of the table. */
struct row {
    uint64_t place;
    uint32_t register_number;
    enum shape_type type;
    bool boxed;
    double box[BOX_COLUMNS];
};

/* The heads of the box's columns, and how wide these must be for every row. */
static const char *const box_heads[BOX_COLUMNS] = {"least x", "least y", "greatest x", "greatest y"};

struct table {
    struct row *rows;
    uint32_t count;
    int widths[BOX_COLUMNS];
};

/* The line of a shape. */
static struct row row_of(const struct shape *shape)
{
    struct box box = {0, 0, 0, 0};
    bool boxed = shape_box(shape, &box);
    return (struct row){shape->place, shape->register_number, shape->type, boxed, {box.least_x, box.least_y, box.greatest_x, box.greatest_y}};
}

/* Fills the rows with the hits. */
static bool fill(struct table *table, const struct source *source, const struct hits *hits)
{
    struct shapes *shapes = memory_take(1, sizeof *shapes);
    bool good = shapes != NULL;
    if (good)
        shapes_start(shapes, source);
    for (uint32_t i = 0; good && i < hits->count; i++) {
        struct shape shape;
        good = shapes_at(shapes, source, hits->places[i], &shape);
        if (good)
            table->rows[table->count++] = row_of(&shape);
    }
    free(shapes);
    return good;
}

/* Makes each column of the box as wide as its widest number. */
static void measure(struct table *table)
{
    char text[NUMBER_ROOM];
    for (int c = 0; c < BOX_COLUMNS; c++) {
        table->widths[c] = snprintf(text, sizeof text, "%s", box_heads[c]);
        for (uint32_t i = 0; i < table->count; i++) {
            int len = table->rows[i].boxed ? number_text(text, table->rows[i].box[c]) : 0;
            table->widths[c] = len > table->widths[c] ? len : table->widths[c];
        }
    }
}

/* Prints one line. */
static void print_row(const struct table *table, const struct row *row)
{
    char text[NUMBER_ROOM];
    printf("%7" PRIu64 "  %10" PRIu32 "  %-15s", row->place, row->register_number, shape_type_name(row->type));
    for (int c = 0; row->boxed && c < BOX_COLUMNS; c++) {
        number_text(text, row->box[c]);
        printf("  %*s", table->widths[c], text);
    }
    puts(row->boxed ? "" : "  no vertex");
}

/* Prints the table. */
static void print_table(const struct table *table)
{
    printf("  place    register  type           ");
    for (int c = 0; c < BOX_COLUMNS; c++)
        printf("  %*s", table->widths[c], box_heads[c]);
    putchar('\n');
    for (uint32_t i = 0; i < table->count; i++)
        print_row(table, &table->rows[i]);
}

/* Lists the hits in a file. */
static enum status list_hits(const struct source *source, const struct hits *hits)
{
    struct table table = {.rows = memory_take(hits->count, sizeof(struct row))};
    if (table.rows == NULL || !fill(&table, source, hits)) {
        free(table.rows);
        return STATUS_WRONG;
    }
    measure(&table);
    print_table(&table);
    printf("hits %" PRIu32 " of %" PRIu32 "\n", hits->count, layout_shapes(source));
    free(table.rows);
    return STATUS_GOOD;
}

enum status list_run(int count, char **words)
{
    struct asked asked;
    struct source source;
    struct hits hits;
    enum status status;
    if (!asked_read(&asked, count, words, TAKES_QUERY) || !source_open(&source, asked.file))
        return STATUS_WRONG;
    if (hits_find(&hits, &source, &asked.query, &status)) {
        status = list_hits(&source, &hits);
        hits_free(&hits);
    }
    source_close(&source);
    return status;
}
