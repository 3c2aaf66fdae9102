/* nested.h: a shape's coordinates in nested lists, as WKT and GeoJSON both have them; only the signs differ. */
#ifndef NESTED_H
#define NESTED_H

#include <stdbool.h>

#include "shape.h"

/* How a form writes lists and vertices. */
struct nested_signs {
    const char *open, *close, *next;         /* of a list */
    const char *vertex, *between, *vertex_end; /* around and in a vertex */
    const char *minus_zero;                  /* the float -0 */
};

/* Prints the coordinates of a shape with vertices, in the lists that its type has: none for a Point, two inside each other for a Polygon, three for a
 * MultiPolygon. `point_lists` says whether a MultiPoint's points are lists of their own. */
void nested_print(const struct shape *shape, const struct nested_signs *signs, bool point_lists);

#endif
