/* shape.h: one shape, its type's name and its box. */
#ifndef SHAPE_H
#define SHAPE_H

#include <stdbool.h>
#include <stdint.h>

enum shape_type { SHAPE_EMPTY, SHAPE_POINT, SHAPE_LINE, SHAPE_POLYGON, SHAPE_MULTIPOINT, SHAPE_MULTILINE, SHAPE_MULTIPOLYGON, SHAPE_TYPES };

/* A shape. The lists belong to whoever gave it. */
struct shape {
    uint64_t place;
    uint32_t register_number;
    enum shape_type type;
    uint32_t parts, vertices;
    const uint16_t *lens;     /* vertices of each part */
    const uint64_t *xs, *ys; /* patterns, part by part */
};

/* Four floats: least x, least y, greatest x, greatest y. */
struct box {
    double least_x, least_y, greatest_x, greatest_y;
};

/* The name of a type. */
const char *shape_type_name(enum shape_type type);

/* Whether a type is made of rings, and whether of single points. */
bool shape_has_rings(enum shape_type type);
bool shape_has_points(enum shape_type type);

/* A vertex's coordinates. */
double shape_x(const struct shape *shape, uint32_t vertex);
double shape_y(const struct shape *shape, uint32_t vertex);

/* The box of all vertices; false where there is none. Of equal values it has the first met. */
bool shape_box(const struct shape *shape, struct box *box);

#endif
