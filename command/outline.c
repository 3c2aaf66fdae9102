/* outline.c: one shape as an element of the picture. */
#include "outline.h"

#include <inttypes.h>
#include <stdio.h>

/* Prints a whole number of a path; a minus sign parts it from the one before, and else a space does. */
static void print_step(long value)
{
    printf("%s%ld", value < 0 ? "" : " ", value);
}

/* Prints a part as a piece of a path: a move to its first vertex, then steps from vertex to vertex. Vertices that round to the one before are left out, and so
 * is the last vertex of a ring, which z stands for. */
static void print_part(const struct picture *picture, const struct shape *shape, uint32_t from, uint32_t count, bool ring)
{
    long x = picture_step_x(picture, shape_x(shape, from)), y = picture_step_y(picture, shape_y(shape, from));
    bool moved = false;
    printf("M%ld", x);
    print_step(y);
    for (uint32_t i = from + 1; i < from + count - (ring ? 1 : 0); i++) {
        long next_x = picture_step_x(picture, shape_x(shape, i)), next_y = picture_step_y(picture, shape_y(shape, i));
        if (next_x == x && next_y == y)
            continue;
        fputs(moved ? "" : "l", stdout);
        if (moved)
            print_step(next_x - x);
        else
            printf("%ld", next_x - x);
        print_step(next_y - y);
        x = next_x;
        y = next_y;
        moved = true;
    }
    fputs(ring ? "z" : moved ? "" : "h0", stdout);
}

/* Prints all parts of a shape as one path. */
static void print_path(const struct picture *picture, const struct shape *shape)
{
    bool ring = shape_has_rings(shape->type);
    uint32_t at = 0;
    printf("<path%s data-place=\"%" PRIu64 "\" d=\"", ring ? "" : " class=\"line\"", shape->place);
    for (uint32_t part = 0; part < shape->parts; part++) {
        print_part(picture, shape, at, shape->lens[part], ring);
        at += shape->lens[part];
    }
    fputs("\">", stdout);
}

/* Prints the tooltip of an element. */
static void print_title(const struct shape *shape)
{
    printf("<title>register %" PRIu32 ", place %" PRIu64 ", %s</title>", shape->register_number, shape->place, shape_type_name(shape->type));
}

/* Prints the points of a shape as circles in a group. */
static void print_circles(const struct picture *picture, const struct shape *shape, double radius)
{
    printf("<g class=\"dots\" data-place=\"%" PRIu64 "\">", shape->place);
    print_title(shape);
    for (uint32_t i = 0; i < shape->vertices; i++)
        printf("<circle cx=\"%ld\" cy=\"%ld\" r=\"%.4g\"/>", picture_step_x(picture, shape_x(shape, i)), picture_step_y(picture, shape_y(shape, i)), radius);
    puts("</g>");
}

void outline_print(const struct picture *picture, const struct shape *shape, double radius)
{
    if (shape_has_points(shape->type)) {
        print_circles(picture, shape, radius);
        return;
    }
    print_path(picture, shape);
    print_title(shape);
    puts("</path>");
}
