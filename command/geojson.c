/* geojson.c: a shape as a GeoJSON Feature (RFC 7946). Coordinates are the file's own units, and rings turn as the file has them. */
#include <inttypes.h>
#include <stdio.h>

#include "forms.h"
#include "nested.h"

void geojson_print(const struct shape *shape)
{
    /* -0 as a whole number would be read back as 0 by readers that have whole numbers. */
    static const struct nested_signs signs = {.open = "[", .close = "]", .next = ",", .vertex = "[", .between = ",", .vertex_end = "]", .minus_zero = "-0.0"};
    printf("{\"type\":\"Feature\",\"properties\":{\"place\":%" PRIu64 ",\"register\":%" PRIu32 "},\"geometry\":", shape->place, shape->register_number);
    if (shape->type == SHAPE_EMPTY) {
        puts("null}");
        return;
    }
    printf("{\"type\":\"%s\",\"coordinates\":", shape_type_name(shape->type));
    nested_print(shape, &signs, false);
    puts("}}");
}
