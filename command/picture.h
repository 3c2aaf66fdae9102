/* picture.h: how a map lies in its picture.
 *
 * Two measures meet here. Outlines are drawn in steps: whole numbers of a power of ten of file units, counted from the map's lower left corner, y upwards, some
 * ten thousand across the map; that is finer than the picture shows, and shorter to write than the coordinates. A group's transform puts them on the sheet
 * and turns y over. All else (title, labels, the query) is drawn in pixels of the sheet, y downwards. */
#ifndef PICTURE_H
#define PICTURE_H

#include <stdbool.h>

#include "query.h"
#include "shape.h"

struct picture {
    double origin_x, origin_y;       /* in file units: where steps are counted from */
    double step;                     /* file units in a step */
    double scale;                    /* pixels in a step */
    double zero_x, zero_y;           /* in pixels: where the origin lies */
    double left, top, width, height; /* in pixels: the map's frame */
    double sheet_width, sheet_height;
    bool query_beyond; /* whether a part of the query lies outside of the frame */
};

/* Lays out a picture of a box, or of nothing where it is null, with a query. */
struct picture picture_fit(const struct box *box, const struct query *query);

/* A coordinate in steps, rounded. */
long picture_step_x(const struct picture *picture, double x);
long picture_step_y(const struct picture *picture, double y);

/* A coordinate in pixels of the sheet; one far outside of the frame is put somewhat outside of it. */
double picture_x(const struct picture *picture, double x);
double picture_y(const struct picture *picture, double y);

#endif
