/* rings.h: the polygons that a shape's rings make. */
#ifndef RINGS_H
#define RINGS_H

#include <stdbool.h>
#include <stdint.h>

#include "shape.h"

/* Whether a ring opens a polygon: of a Polygon the first, of a MultiPolygon each that is clockwise. The ring is a part of the shape and begins at a vertex. */
bool rings_opens(const struct shape *shape, uint32_t part, uint32_t first_vertex);

#endif
