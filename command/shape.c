/* shape.c: one shape, its type's name and its box. */
#include "shape.h"

#include "pattern.h"

const char *shape_type_name(enum shape_type type)
{
    static const char *const names[SHAPE_TYPES] = {"empty", "Point", "LineString", "Polygon", "MultiPoint", "MultiLineString", "MultiPolygon"};
    return type < SHAPE_TYPES ? names[type] : "unknown";
}

bool shape_has_rings(enum shape_type type)
{
    return type == SHAPE_POLYGON || type == SHAPE_MULTIPOLYGON;
}

bool shape_has_points(enum shape_type type)
{
    return type == SHAPE_POINT || type == SHAPE_MULTIPOINT;
}

double shape_x(const struct shape *shape, uint32_t vertex)
{
    return value_of(shape->xs[vertex]);
}

double shape_y(const struct shape *shape, uint32_t vertex)
{
    return value_of(shape->ys[vertex]);
}

bool shape_box(const struct shape *shape, struct box *box)
{
    if (shape->vertices == 0)
        return false;
    *box = (struct box){shape_x(shape, 0), shape_y(shape, 0), shape_x(shape, 0), shape_y(shape, 0)};
    for (uint32_t i = 1; i < shape->vertices; i++) {
        double x = shape_x(shape, i), y = shape_y(shape, i);
        box->least_x = x < box->least_x ? x : box->least_x;
        box->least_y = y < box->least_y ? y : box->least_y;
        box->greatest_x = x > box->greatest_x ? x : box->greatest_x;
        box->greatest_y = y > box->greatest_y ? y : box->greatest_y;
    }
    return true;
}
