/* stats.c: 'boundary stats FILE', what is in a file and how tightly it is packed. */
#include <inttypes.h>
#include <stdio.h>
#include <stdlib.h>

#include "asked.h"
#include "memory.h"
#include "refusal.h"
#include "shapes.h"
#include "subcommands.h"

/* What the spots in the middle of the shapes' boxes open, summed over the spots. */
struct opened {
    uint64_t spots, pages, bytes;
};

/* What is in a file. */
struct stats {
    struct layout_page *pages;
    uint32_t page_count;
    uint64_t types[SHAPE_TYPES], vertices;
    struct opened opened;
};

/* Notes the pages. */
static bool note_pages(struct stats *stats, const struct source *source)
{
    struct layout walk = layout_start(source);
    stats->pages = memory_take(BOUNDARY_MOST_PAGES, sizeof *stats->pages);
    if (stats->pages == NULL)
        return false;
    while (stats->page_count < BOUNDARY_MOST_PAGES && layout_next(&walk, &stats->pages[stats->page_count]))
        stats->page_count++;
    return true;
}

/* Whether a page's stored box holds a spot. */
static bool holds(const struct layout_page *page, double x, double y)
{
    return page->vertices > 0 && page->box[0] <= x && x <= page->box[2] && page->box[1] <= y && y <= page->box[3];
}

/* Notes what the middle of a shape's box opens. Halves are added, so that the sum is finite. */
static void note_opened(struct stats *stats, const struct shape *shape)
{
    struct box box;
    if (!shape_box(shape, &box))
        return;
    double x = box.least_x / 2 + box.greatest_x / 2, y = box.least_y / 2 + box.greatest_y / 2;
    stats->opened.spots++;
    for (uint32_t i = 0; i < stats->page_count; i++)
        if (holds(&stats->pages[i], x, y)) {
            stats->opened.pages++;
            stats->opened.bytes += stats->pages[i].block_len;
        }
}

/* Notes the shapes. */
static bool note_shapes(struct stats *stats, const struct source *source)
{
    struct shapes *shapes = memory_take(1, sizeof *shapes);
    struct shape shape;
    bool good = shapes != NULL;
    if (good)
        shapes_start(shapes, source);
    for (uint64_t place = 0, count = layout_shapes(source); good && place < count; place++) {
        good = shapes_at(shapes, source, place, &shape);
        if (good) {
            stats->types[shape.type]++;
            stats->vertices += shape.vertices;
            note_opened(stats, &shape);
        }
    }
    free(shapes);
    return good;
}

/* Prints the counts. */
static void print_counts(const struct stats *stats, const struct source *source)
{
    printf("pages             %" PRIu32 "\nshapes            %" PRIu32 "\n", stats->page_count, layout_shapes(source));
    for (unsigned type = 0; type < SHAPE_TYPES; type++)
        if (stats->types[type] > 0)
            printf("  %-15s %" PRIu64 "\n", shape_type_name((enum shape_type)type), stats->types[type]);
    printf("vertices          %" PRIu64 "\nbytes             %zu\n", stats->vertices, source->len);
    if (stats->vertices > 0)
        printf("bytes per vertex  %.2f\n", (double)source->len / (double)stats->vertices);
}

/* Prints what a typical spot opens. */
static void print_opened(const struct stats *stats, const struct source *source)
{
    if (stats->opened.spots == 0)
        return;
    double spots = (double)stats->opened.spots, bytes = (double)stats->opened.bytes / spots;
    printf("a spot opens      %.2f pages, %.2f %% of the bytes (on average, a spot in the middle of each shape's box)\n",
           (double)stats->opened.pages / spots, 100 * bytes / (double)source->len);
}

/* Prints a column's width; a column of no values has none. */
static void print_width(const uint8_t *column, size_t len)
{
    if (len > 0)
        printf("  %7u", column[0]);
    else
        printf("  %7s", "none");
}

/* Prints a line for each page. */
static void print_pages(const struct stats *stats)
{
    if (stats->page_count > 0)
        puts("\n page  shapes   parts  vertices    bytes  x width  y width");
    for (uint32_t i = 0; i < stats->page_count; i++) {
        const struct layout_page *page = &stats->pages[i];
        printf("%5" PRIu32 "  %6" PRIu32 "  %6" PRIu32 "  %8" PRIu32 "  %7zu", i, page->shapes, page->parts, page->vertices, page->block_len);
        print_width(page->x, page->x_len);
        print_width(page->y, page->y_len);
        putchar('\n');
    }
}

/* Prints what is in a file, once the library has checked it in full. */
static enum status stats_source(const struct source *source)
{
    uint64_t word = boundary_check(source->bytes, source->len);
    if (BOUNDARY_NUMBER(word) != 0) {
        refusal_print(stderr, source, word);
        return refusal_status(word);
    }
    struct stats stats = {.page_count = 0};
    bool good = note_pages(&stats, source) && note_shapes(&stats, source);
    if (good) {
        print_counts(&stats, source);
        print_opened(&stats, source);
        print_pages(&stats);
    }
    free(stats.pages);
    return good ? STATUS_GOOD : STATUS_WRONG;
}

enum status stats_run(int count, char **words)
{
    struct asked asked;
    struct source source;
    if (!asked_read(&asked, count, words, TAKES_NOTHING) || !source_open(&source, asked.file))
        return STATUS_WRONG;
    enum status status = stats_source(&source);
    source_close(&source);
    return status;
}
