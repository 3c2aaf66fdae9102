/* label.h: where a shape's label fits, and how large it can be. */
#ifndef LABEL_H
#define LABEL_H

#include <stdbool.h>
#include <stdint.h>

#include "picture.h"
#include "shape.h"

/* A label in pixels of the sheet: the middle of its text, the height of its letters' line, and what stays free around it. */
struct label {
    double x, y, size, air;
    uint32_t register_number;
    bool hit;
};

/* The label of a shape; false where the shape is too small for a readable one. `radius` is that of a point, in pixels. */
bool label_of(const struct picture *picture, const struct shape *shape, double radius, struct label *label);

/* How wide a label's text is, about. */
double label_width(const struct label *label);

#endif
