/* nested.c: a shape's coordinates in nested lists, as WKT and GeoJSON both have them; only the signs differ. */
#include "nested.h"

#include <stdio.h>

#include "number.h"
#include "pattern.h"
#include "rings.h"

/* Prints a coordinate. */
static void print_number(uint64_t pattern, const struct nested_signs *signs)
{
    char text[NUMBER_ROOM];
    number_text(text, value_of(pattern));
    fputs(pattern == pattern_of(-0.0) ? signs->minus_zero : text, stdout);
}

/* Prints a vertex. */
static void print_vertex(const struct shape *shape, uint32_t at, const struct nested_signs *signs)
{
    fputs(signs->vertex, stdout);
    print_number(shape->xs[at], signs);
    fputs(signs->between, stdout);
    print_number(shape->ys[at], signs);
    fputs(signs->vertex_end, stdout);
}

/* Prints the vertices of a part, as a list or bare. */
static void print_part(const struct shape *shape, uint32_t from, uint32_t count, const struct nested_signs *signs, bool listed)
{
    fputs(listed ? signs->open : "", stdout);
    for (uint32_t i = 0; i < count; i++) {
        fputs(i > 0 ? signs->next : "", stdout);
        print_vertex(shape, from + i, signs);
    }
    fputs(listed ? signs->close : "", stdout);
}

/* Prints what stands between a part and the one before it. In a MultiPolygon a ring that opens a polygon begins a list. */
static void print_joint(const struct shape *shape, uint32_t part, uint32_t from, const struct nested_signs *signs)
{
    bool many = shape->type == SHAPE_MULTIPOLYGON, opens = many && rings_opens(shape, part, from);
    fputs(part > 0 && opens ? signs->close : "", stdout);
    fputs(part > 0 ? signs->next : "", stdout);
    fputs(opens ? signs->open : "", stdout);
}

void nested_print(const struct shape *shape, const struct nested_signs *signs, bool point_lists)
{
    bool outer = shape->type >= SHAPE_POLYGON, point = shape_has_points(shape->type);
    bool listed = point ? shape->type == SHAPE_MULTIPOINT && point_lists : true;
    uint32_t at = 0;
    fputs(outer ? signs->open : "", stdout);
    for (uint32_t part = 0; part < shape->parts; part++) {
        print_joint(shape, part, at, signs);
        print_part(shape, at, shape->lens[part], signs, listed);
        at += shape->lens[part];
    }
    fputs(shape->type == SHAPE_MULTIPOLYGON ? signs->close : "", stdout);
    fputs(outer ? signs->close : "", stdout);
}
