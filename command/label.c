/* label.c: where a shape's label fits, and how large it can be. In an outline with rings several lines are laid across it; on each, the widest stretch inside of the
 * outline takes a label in its middle, and the largest of these labels is kept. */
#include "label.h"

#include <math.h>
#include <stdlib.h>

#include "boundary.h"

#define DIGIT 0.6        /* a digit's width, in label sizes */
#define HALF_HEIGHT 0.45 /* of a digit, with some air, in label sizes */
#define LEAST_SIZE 6.5   /* pixels; smaller labels are left out */
#define MOST_SIZE 16.0
#define POINT_SIZE 11.0  /* of labels beside points and lines */
#define LEAST_LINE 48.0  /* shorter lines get no label */
#define FITTED 0.92      /* of the greatest size that would fit */
#define AREA_AIR 2.0     /* pixels around a label inside of its shape that stay free */
#define OTHER_AIR 10.0   /* around one beside it */

enum { LINES = 11 };

/* The vertices of a shape in pixels. */
struct pixels {
    double xs[BOUNDARY_MOST_VALUES], ys[BOUNDARY_MOST_VALUES];
};

double label_width(const struct label *label)
{
    double digits = 1;
    for (uint32_t rest = label->register_number / 10; rest > 0; rest /= 10)
        digits++;
    return digits * DIGIT * label->size;
}

static int ascending(const void *a, const void *b)
{
    double x = *(const double *)a, y = *(const double *)b;
    return (x > y) - (x < y);
}

/* Where the outline's edges cross the line on which `across` has a value; the crossings are values of `along`. */
static size_t crossings(const struct shape *shape, const double *along, const double *across, double value, double *out)
{
    size_t count = 0;
    uint32_t at = 0;
    for (uint32_t part = 0; part < shape->parts; at += shape->lens[part], part++)
        for (uint32_t i = at; i + 1 < at + shape->lens[part]; i++)
            if ((across[i] <= value) != (across[i + 1] <= value))
                out[count++] = along[i] + (value - across[i]) / (across[i + 1] - across[i]) * (along[i + 1] - along[i]);
    return count;
}

/* The size at which a label in the middle of a spot would touch the edge between two vertices. In the label's own measure (half its width and half its height are 1)
 * that is the least of max(|x|, |y|) on the edge; it lies at an end, or where x or y is 0, or where they are equal but for the sign. */
static double touched(double x, double y, double to_x, double to_y)
{
    double dx = to_x - x, dy = to_y - y;
    double at[6] = {0, 1, -x / dx, -y / dy, -(x - y) / (dx - dy), -(x + y) / (dx + dy)}, least = HUGE_VAL;
    for (int i = 0; i < 6; i++)
        if (at[i] >= 0 && at[i] <= 1)
            least = fmin(least, fmax(fabs(x + at[i] * dx), fabs(y + at[i] * dy)));
    return least;
}

/* The greatest size of a label in the middle of a spot that touches no edge. */
static double room_at(const struct shape *shape, const struct pixels *at, double x, double y, double half_width)
{
    double least = HUGE_VAL;
    uint32_t from = 0;
    for (uint32_t part = 0; part < shape->parts; from += shape->lens[part], part++)
        for (uint32_t i = from; i + 1 < from + shape->lens[part]; i++)
            least = fmin(least, touched((at->xs[i] - x) / half_width, (at->ys[i] - y) / HALF_HEIGHT, (at->xs[i + 1] - x) / half_width,
                                        (at->ys[i + 1] - y) / HALF_HEIGHT));
    return least;
}

/* Keeps the label in the middle of the widest stretch of the line at a height, if it is larger than the best so far. */
static void try_line(const struct shape *shape, const struct pixels *at, double y, struct label *best)
{
    double crossed[BOUNDARY_MOST_VALUES];
    struct label label = {.y = y, .size = 1, .air = AREA_AIR, .register_number = shape->register_number};
    double widest = 0, half_width = label_width(&label) / 2;
    size_t count = crossings(shape, at->xs, at->ys, y, crossed);
    qsort(crossed, count, sizeof crossed[0], ascending);
    for (size_t i = 0; i + 1 < count; i += 2)
        if (crossed[i + 1] - crossed[i] > widest) {
            widest = crossed[i + 1] - crossed[i];
            label.x = crossed[i] + widest / 2;
        }
    if (widest / 2 / half_width <= best->size)
        return;
    label.size = room_at(shape, at, label.x, y, half_width);
    if (label.size > best->size)
        *best = label;
}

/* The label inside of an outline with rings. Lines nearer to the middle are tried first. */
static bool inside(const struct picture *picture, const struct shape *shape, const struct box *box, struct label *label)
{
    struct pixels *at = malloc(sizeof *at);
    if (at == NULL)
        return false;
    for (uint32_t i = 0; i < shape->vertices; i++) {
        at->xs[i] = picture_x(picture, shape_x(shape, i));
        at->ys[i] = picture_y(picture, shape_y(shape, i));
    }
    double low = picture_y(picture, box->least_y), high = picture_y(picture, box->greatest_y);
    *label = (struct label){.size = 0};
    for (int i = 1; i <= LINES; i++) {
        double off = (i % 2 == 0 ? 1 : -1) * (i / 2) / (double)(LINES + 1);
        try_line(shape, at, low + (high - low) * (0.5 + off), label);
    }
    free(at);
    label->size = fmin(FITTED * label->size, MOST_SIZE);
    return label->size >= LEAST_SIZE;
}

/* The label beside a point: at its right, or at its left where the frame ends. */
static bool beside_point(const struct picture *picture, const struct shape *shape, double radius, struct label *label)
{
    double away = radius + 3 + label_width(label) / 2, x = picture_x(picture, shape_x(shape, 0));
    label->x = x + away + label_width(label) / 2 + 3 > picture->left + picture->width ? x - away : x + away;
    label->y = picture_y(picture, shape_y(shape, 0));
    return true;
}

/* The label beside the middle edge of a line: above it, as far off as the text asks for. */
static bool over_line(const struct picture *picture, const struct shape *shape, const struct box *box, struct label *label)
{
    double wide = picture_x(picture, box->greatest_x) - picture_x(picture, box->least_x);
    double high = picture_y(picture, box->least_y) - picture_y(picture, box->greatest_y);
    uint32_t to = shape->lens[0] / 2u, from = to - 1;
    double x = picture_x(picture, shape_x(shape, from)), y = picture_y(picture, shape_y(shape, from));
    double dx = picture_x(picture, shape_x(shape, to)) - x, dy = picture_y(picture, shape_y(shape, to)) - y, len = hypot(dx, dy);
    double across = len > 0 ? dy / len : 0, up = len > 0 ? -fabs(dx / len) : -1;
    double off = fabs(across) * label_width(label) / 2 + fabs(up) * HALF_HEIGHT * label->size + 4;
    label->x = x + dx / 2 + (dx < 0 ? -across : across) * off;
    label->y = y + dy / 2 + up * off;
    return wide + high >= LEAST_LINE;
}

/* Whether a shape is a single line that ends where it began. */
static bool is_loop(const struct shape *shape)
{
    uint32_t last = shape->vertices - 1;
    return shape->type == SHAPE_LINE && shape->xs[0] == shape->xs[last] && shape->ys[0] == shape->ys[last];
}

bool label_of(const struct picture *picture, const struct shape *shape, double radius, struct label *label)
{
    struct box box;
    bool ringed = shape_has_rings(shape->type);
    *label = (struct label){.size = POINT_SIZE, .air = ringed ? AREA_AIR : OTHER_AIR, .register_number = shape->register_number};
    if (!shape_box(shape, &box))
        return false;
    if (ringed || is_loop(shape))
        return inside(picture, shape, &box, label);
    return shape_has_points(shape->type) ? beside_point(picture, shape, radius, label) : over_line(picture, shape, &box, label);
}
