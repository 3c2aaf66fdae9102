/* draw.c: 'boundary draw FILE [QUERY]', a map as a picture in SVG on standard output. */
#include <inttypes.h>
#include <math.h>
#include <stdio.h>
#include <stdlib.h>

#include "asked.h"
#include "hits.h"
#include "labels.h"
#include "memory.h"
#include "outline.h"
#include "palette.h"
#include "refusal.h"
#include "shapes.h"
#include "sheet.h"
#include "subcommands.h"

/* A map under way. */
struct map {
    const struct source *source;
    const struct query *query;
    struct hits hits;
    struct shapes *shapes;
    struct picture picture;
    double radius; /* of a point, in pixels */
    struct box box;
    bool boxed; /* whether there is a vertex */
    uint64_t points;
    struct label *labels;
    size_t label_count;
};

/* What is done with each shape. */
typedef void visit(struct map *map, const struct shape *shape, bool hit);

/* Goes over all shapes in order. */
static bool each_shape(struct map *map, visit *visit)
{
    struct shape shape;
    uint32_t hit = 0;
    shapes_start(map->shapes, map->source);
    for (uint64_t place = 0, count = layout_shapes(map->source); place < count; place++) {
        if (!shapes_at(map->shapes, map->source, place, &shape))
            return false;
        bool is_hit = hit < map->hits.count && map->hits.places[hit] == place;
        hit += is_hit;
        if (shape.vertices > 0)
            visit(map, &shape, is_hit && map->query->kind != QUERY_EVERYTHING);
    }
    return true;
}

/* Takes a shape into the map's box, and counts its points. */
static void survey(struct map *map, const struct shape *shape, bool hit)
{
    struct box box;
    (void)hit;
    if (!shape_box(shape, &box))
        return;
    if (!map->boxed)
        map->box = box;
    map->boxed = true;
    map->box.least_x = fmin(map->box.least_x, box.least_x);
    map->box.least_y = fmin(map->box.least_y, box.least_y);
    map->box.greatest_x = fmax(map->box.greatest_x, box.greatest_x);
    map->box.greatest_y = fmax(map->box.greatest_y, box.greatest_y);
    map->points += shape_has_points(shape->type) ? shape->vertices : 0;
}

/* Draws a shape that is not hit; or one that is. Each is labelled where there is room. */
static void draw_shape(struct map *map, const struct shape *shape, bool hit)
{
    struct label *label = &map->labels[map->label_count];
    outline_print(&map->picture, shape, map->radius / map->picture.scale);
    if (!label_of(&map->picture, shape, map->radius, label))
        return;
    label->hit = hit;
    map->label_count++;
}

static void draw_other(struct map *map, const struct shape *shape, bool hit)
{
    if (!hit)
        draw_shape(map, shape, hit);
}

static void draw_hit(struct map *map, const struct shape *shape, bool hit)
{
    if (hit)
        draw_shape(map, shape, hit);
}

/* Draws all outlines, hits over the others. Widths of lines are in steps, so that they go with the map. */
static bool draw_outlines(struct map *map)
{
    const struct picture *p = &map->picture;
    printf("<g clip-path=\"url(#frame)\"><g id=\"outlines\" transform=\"matrix(%.9g 0 0 %.9g %.2f %.2f)\" fill-rule=\"evenodd\" stroke-linejoin=\"round\" "
           "stroke-linecap=\"round\">\n", p->scale, -p->scale, p->zero_x, p->zero_y);
    printf("<g class=\"others\" fill=\"" OTHER_FILL "\" stroke=\"" OTHER_LINE "\" stroke-width=\"%.4g\">\n", 0.8 / p->scale);
    bool good = each_shape(map, draw_other);
    printf("</g>\n<g class=\"hits\" fill=\"" HIT_FILL "\" stroke=\"" HIT_LINE "\" stroke-width=\"%.4g\">\n", 1.1 / p->scale);
    good = good && each_shape(map, draw_hit);
    puts("</g>\n</g></g>");
    return good;
}

/* The radius of points in pixels: about a tenth of their distance if they lay evenly, within limits. */
static double radius_of(const struct map *map)
{
    double area = map->picture.width * map->picture.height;
    return map->points == 0 ? 0 : fmax(1.6, fmin(5, 0.1 * sqrt(area / (double)map->points)));
}

/* Draws the map. */
static enum status draw_map(struct map *map)
{
    if (!each_shape(map, survey))
        return STATUS_WRONG;
    struct sheet sheet = {
        .name = map->source->name, .hits = map->hits.count, .shapes = layout_shapes(map->source), .query = map->query, .blank = !map->boxed,
    };
    map->picture = picture_fit(map->boxed ? &map->box : NULL, map->query);
    map->radius = radius_of(map);
    sheet_open(&map->picture, &sheet);
    if (!draw_outlines(map))
        return STATUS_WRONG;
    sheet_query(&map->picture, map->query);
    bool good = labels_print(&map->picture, map->labels, map->label_count);
    sheet_close(&map->picture, &sheet);
    return good ? STATUS_GOOD : STATUS_WRONG;
}

/* Draws a file that the library has checked in full. */
static enum status draw_checked(const struct source *source, const struct query *query)
{
    struct map map = {.source = source, .query = query};
    enum status status;
    if (!hits_find(&map.hits, source, query, &status))
        return status;
    map.shapes = memory_take(1, sizeof *map.shapes);
    map.labels = memory_take(layout_shapes(source), sizeof *map.labels);
    status = map.shapes != NULL && map.labels != NULL ? draw_map(&map) : STATUS_WRONG;
    free(map.labels);
    free(map.shapes);
    hits_free(&map.hits);
    return status;
}

enum status draw_run(int count, char **words)
{
    struct asked asked;
    struct source source;
    if (!asked_read(&asked, count, words, TAKES_QUERY) || !source_open(&source, asked.file))
        return STATUS_WRONG;
    enum status status;
    uint64_t word = boundary_check(source.bytes, source.len);
    if (BOUNDARY_NUMBER(word) != 0) {
        refusal_print(stderr, &source, word);
        status = refusal_status(word);
    } else {
        status = draw_checked(&source, &asked.query);
    }
    source_close(&source);
    return status;
}
