/* rings.c: the polygons that a shape's rings make. */
#include "rings.h"

/* The turn of a ring of a MultiPolygon: negative is clockwise. Its coordinates are whole numbers of at most 2^24, so that 2,048 edges come to less than 2^61. */
static int64_t turn(const struct shape *shape, uint32_t from, uint32_t count)
{
    int64_t sum = 0;
    for (uint32_t i = from; i + 1 < from + count; i++) {
        int64_t x = (int64_t)shape_x(shape, i), y = (int64_t)shape_y(shape, i);
        int64_t next_x = (int64_t)shape_x(shape, i + 1), next_y = (int64_t)shape_y(shape, i + 1);
        sum += x * next_y - next_x * y;
    }
    return sum;
}

bool rings_opens(const struct shape *shape, uint32_t part, uint32_t first_vertex)
{
    if (part == 0 || shape->type != SHAPE_MULTIPOLYGON)
        return part == 0;
    return turn(shape, first_vertex, shape->lens[part]) < 0;
}
