/* wkt.c: a shape as well-known text. */
#include <stdio.h>

#include "forms.h"
#include "nested.h"

void wkt_print(const struct shape *shape)
{
    static const char *const words[SHAPE_TYPES] = {
        "GEOMETRYCOLLECTION EMPTY", "POINT (", "LINESTRING ", "POLYGON ", "MULTIPOINT ", "MULTILINESTRING ", "MULTIPOLYGON ",
    };
    static const struct nested_signs signs = {.open = "(", .close = ")", .next = ", ", .vertex = "", .between = " ", .vertex_end = "", .minus_zero = "-0"};
    fputs(words[shape->type], stdout);
    if (shape->type != SHAPE_EMPTY)
        nested_print(shape, &signs, true);
    puts(shape->type == SHAPE_POINT ? ")" : "");
}
