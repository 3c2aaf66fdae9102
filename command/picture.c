/* picture.c: how a map lies in its picture. */
#include "picture.h"

#include <float.h>
#include <math.h>

/* Of the sheet, in pixels. */
#define MARGIN 20.0         /* around all */
#define TITLE 66.0          /* above the map */
#define FOOT 40.0           /* below it */
#define PAD 24.0            /* between the frame and the outlines */
#define MOST_WIDTH 912.0    /* of the outlines */
#define MOST_HEIGHT 820.0
#define LEAST_WIDTH 560.0   /* of the frame, without its pad */
#define LEAST_HEIGHT 220.0
#define FAR 4000.0          /* what lies farther outside is drawn so far outside */

/* A map smaller than this is drawn as a spot: its steps would be too small for a float. */
#define LEAST_SPAN 1e-290

/* The distance of two finite values, the greatest float where that is too far. */
static double distance(double from, double to)
{
    double d = to - from;
    return d > DBL_MAX ? DBL_MAX : d;
}

/* (value - origin) / step, also where the difference is too great for a float. */
static double in_steps(double value, double origin, double step)
{
    double d = value - origin;
    return isfinite(d) ? d / step : value / step - origin / step;
}

/* The smaller and the greater of two floats, neither of which is NaN. */
static double smaller(double a, double b)
{
    return a < b ? a : b;
}

static double greater(double a, double b)
{
    return a > b ? a : b;
}

/* A query's box. */
static struct box box_of(const struct query *query)
{
    const double *at = query->at;
    return query->kind == QUERY_SPOT ? (struct box){at[0], at[1], at[0], at[1]} : (struct box){at[0], at[1], at[2], at[3]};
}

/* The box of the map: that of the shapes, with as much of the query as lies no farther from them than they are large. */
static struct box map_box(const struct box *shapes, const struct query *query)
{
    if (query->kind == QUERY_EVERYTHING)
        return shapes != NULL ? *shapes : (struct box){0, 0, 0, 0};
    struct box asked = box_of(query);
    if (shapes == NULL)
        return asked;
    double reach = greater(distance(shapes->least_x, shapes->greatest_x), distance(shapes->least_y, shapes->greatest_y)) / 2;
    double left = shapes->least_x - reach, right = shapes->greatest_x + reach, low = shapes->least_y - reach, high = shapes->greatest_y + reach;
    if (asked.greatest_x < left || asked.least_x > right || asked.greatest_y < low || asked.least_y > high)
        return *shapes;
    return (struct box){
        smaller(shapes->least_x, greater(asked.least_x, left)),
        smaller(shapes->least_y, greater(asked.least_y, low)),
        greater(shapes->greatest_x, smaller(asked.greatest_x, right)),
        greater(shapes->greatest_y, smaller(asked.greatest_y, high)),
    };
}

/* Whether a query reaches out of the map. */
static bool beyond(const struct box *map, const struct query *query)
{
    struct box asked = box_of(query);
    return query->kind != QUERY_EVERYTHING
        && (asked.least_x < map->least_x || asked.least_y < map->least_y || asked.greatest_x > map->greatest_x || asked.greatest_y > map->greatest_y);
}

/* The step of a map: a power of ten, such that its longer side has 10,000 to 100,000 of them. */
static double step_of(double span)
{
    return span < LEAST_SPAN ? 1 : pow(10, floor(log10(span)) - 4);
}

/* Lays out the sheet around a map of so many steps. */
static void lay_out(struct picture *p, double wide, double high)
{
    double most = greater(wide / MOST_WIDTH, high / MOST_HEIGHT);
    p->scale = most > 0 ? 1 / most : 1;
    p->width = greater(wide * p->scale, LEAST_WIDTH) + 2 * PAD;
    p->height = greater(high * p->scale, LEAST_HEIGHT) + 2 * PAD;
    p->left = MARGIN;
    p->top = MARGIN + TITLE;
    p->zero_x = p->left + (p->width - wide * p->scale) / 2;
    p->zero_y = p->top + (p->height + high * p->scale) / 2;
    p->sheet_width = p->width + 2 * MARGIN;
    p->sheet_height = p->top + p->height + FOOT + MARGIN;
}

struct picture picture_fit(const struct box *box, const struct query *query)
{
    struct box map = map_box(box, query);
    double span = greater(distance(map.least_x, map.greatest_x), distance(map.least_y, map.greatest_y));
    struct picture p = {.origin_x = map.least_x, .origin_y = map.least_y, .step = step_of(span), .query_beyond = beyond(&map, query)};
    bool spot = span < LEAST_SPAN;
    double wide = spot ? 0 : in_steps(map.greatest_x, map.least_x, p.step), high = spot ? 0 : in_steps(map.greatest_y, map.least_y, p.step);
    lay_out(&p, wide, high);
    return p;
}

long picture_step_x(const struct picture *picture, double x)
{
    return lround(in_steps(x, picture->origin_x, picture->step));
}

long picture_step_y(const struct picture *picture, double y)
{
    return lround(in_steps(y, picture->origin_y, picture->step));
}

double picture_x(const struct picture *picture, double x)
{
    double at = picture->zero_x + in_steps(x, picture->origin_x, picture->step) * picture->scale;
    return greater(-FAR, smaller(at, picture->sheet_width + FAR));
}

double picture_y(const struct picture *picture, double y)
{
    double at = picture->zero_y - in_steps(y, picture->origin_y, picture->step) * picture->scale;
    return greater(-FAR, smaller(at, picture->sheet_height + FAR));
}
