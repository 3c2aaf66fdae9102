/* outline.h: one shape as an element of the picture. */
#ifndef OUTLINE_H
#define OUTLINE_H

#include "picture.h"
#include "shape.h"

/* Prints the element of a shape with vertices: a path, a circle, or a group of circles with a radius in steps. It names its place and register. */
void outline_print(const struct picture *picture, const struct shape *shape, double radius);

#endif
