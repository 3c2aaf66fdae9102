/* labels.c: all labels of a picture, put where none lies on another. The frame is cut into small cells, and a label takes those that it covers. */
#include "labels.h"

#include <inttypes.h>
#include <stdio.h>
#include <stdlib.h>

#include "memory.h"
#include "palette.h"

#define CELL 3.0     /* pixels */
#define BASELINE 0.35 /* from a digit's middle down to its foot, in label sizes */

struct cells {
    unsigned char *taken;
    size_t columns, rows;
};

/* The cells that a label covers: from and to, the last included. */
struct patch {
    size_t left, top, right, bottom;
};

/* The cell at a distance from the frame's side, or the nearest in the frame. */
static size_t cell(double at, double most)
{
    return at <= 0 ? 0 : (size_t)((at < most ? at : most) / CELL);
}

/* The cells that a label covers, with its air; false where it reaches out of the frame. */
static bool patch_of(const struct picture *picture, const struct label *label, struct patch *patch)
{
    double half_width = label_width(label) / 2 + label->air, half_height = label->size / 2 + label->air;
    double left = label->x - half_width - picture->left, right = label->x + half_width - picture->left;
    double top = label->y - half_height - picture->top, bottom = label->y + half_height - picture->top;
    if (left + label->air < 0 || top + label->air < 0 || right - label->air > picture->width || bottom - label->air > picture->height)
        return false;
    *patch = (struct patch){cell(left, picture->width), cell(top, picture->height), cell(right, picture->width), cell(bottom, picture->height)};
    return true;
}

/* Takes the cells of a patch; false where one is taken already. */
static bool take(struct cells *cells, const struct patch *patch)
{
    for (size_t row = patch->top; row <= patch->bottom; row++)
        for (size_t column = patch->left; column <= patch->right; column++)
            if (cells->taken[row * cells->columns + column])
                return false;
    for (size_t row = patch->top; row <= patch->bottom; row++)
        for (size_t column = patch->left; column <= patch->right; column++)
            cells->taken[row * cells->columns + column] = 1;
    return true;
}

/* Prints the labels of hits, or of the others, as far as there is room. */
static void print_some(const struct picture *picture, struct cells *cells, const struct label *labels, size_t count, bool hit)
{
    struct patch patch;
    for (size_t i = 0; i < count; i++) {
        const struct label *label = &labels[i];
        if (label->hit != hit || !patch_of(picture, label, &patch) || !take(cells, &patch))
            continue;
        printf("<text x=\"%.1f\" y=\"%.1f\" font-size=\"%.1f\"%s>%" PRIu32 "</text>\n", label->x, label->y + BASELINE * label->size, label->size,
               hit ? " fill=\"" HIT_TEXT "\"" : "", label->register_number);
    }
}

bool labels_print(const struct picture *picture, const struct label *labels, size_t count)
{
    struct cells cells = {.columns = (size_t)(picture->width / CELL) + 1, .rows = (size_t)(picture->height / CELL) + 1};
    cells.taken = memory_take(cells.columns * cells.rows, 1);
    if (cells.taken == NULL)
        return false;
    puts("<g id=\"labels\" " SANS " text-anchor=\"middle\" fill=\"" OTHER_TEXT "\" pointer-events=\"none\">");
    print_some(picture, &cells, labels, count, true);
    print_some(picture, &cells, labels, count, false);
    puts("</g>");
    free(cells.taken);
    return true;
}
