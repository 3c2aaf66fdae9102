/* forms.h: the forms that a shape is shown in, each printed on standard output. */
#ifndef FORMS_H
#define FORMS_H

#include "shape.h"

/* For people: what it is, then each part with its coordinates, a vertex to a line. */
void plain_print(const struct shape *shape);

/* Well-known text, on one line. */
void wkt_print(const struct shape *shape);

/* GeoJSON, a Feature on one line. */
void geojson_print(const struct shape *shape);

#endif
