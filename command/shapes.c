/* shapes.c: the shapes of a file in order. */
#include "shapes.h"

#include <stdio.h>

#include "name.h"
#include "pattern.h"

void shapes_start(struct shapes *shapes, const struct source *source)
{
    shapes->walk = layout_start(source);
    shapes->begun = shapes->decoded = false;
    shapes->first = 0;
    shapes->index = shapes->part = shapes->vertex = 0;
}

/* Goes on to the next page. */
static bool next_page(struct shapes *shapes)
{
    uint64_t passed = shapes->begun ? shapes->page.shapes : 0;
    if (!layout_next(&shapes->walk, &shapes->page))
        return false;
    shapes->first += passed;
    shapes->begun = true;
    shapes->decoded = false;
    shapes->index = shapes->part = shapes->vertex = 0;
    return true;
}

/* Decodes the page's lists. */
static bool decode(struct shapes *shapes)
{
    const struct layout_page *page = &shapes->page;
    uint64_t x = boundary_column_read(page->x, page->x_len, page->vertices, shapes->xs, BOUNDARY_MOST_VALUES);
    uint64_t y = boundary_column_read(page->y, page->y_len, page->vertices, shapes->ys, BOUNDARY_MOST_VALUES);
    for (uint32_t i = 0; i < page->parts; i++)
        shapes->lens[i] = load16(page->lens + 2 * i);
    shapes->decoded = true;
    return BOUNDARY_NUMBER(x) == 0 && BOUNDARY_NUMBER(y) == 0;
}

/* The page's next shape. False where it does not fit in the page. */
static bool next_shape(struct shapes *shapes, struct shape *shape)
{
    const struct layout_page *page = &shapes->page;
    uint32_t parts = load16(page->counts + 2 * shapes->index), vertices = 0;
    if (parts > page->parts - shapes->part)
        return false;
    for (uint32_t i = 0; i < parts; i++)
        vertices += shapes->lens[shapes->part + i];
    if (vertices > page->vertices - shapes->vertex || page->types[shapes->index] >= SHAPE_TYPES)
        return false;
    *shape = (struct shape){
        .place = shapes->first + shapes->index,
        .register_number = load32(page->registers + 4 * shapes->index),
        .type = (enum shape_type)page->types[shapes->index],
        .parts = parts,
        .vertices = vertices,
        .lens = shapes->lens + shapes->part,
        .xs = shapes->xs + shapes->vertex,
        .ys = shapes->ys + shapes->vertex,
    };
    shapes->index++;
    shapes->part += parts;
    shapes->vertex += vertices;
    return true;
}

/* The shape at a place, or false. */
static bool find(struct shapes *shapes, uint64_t place, struct shape *shape)
{
    while (!shapes->begun || place - shapes->first >= shapes->page.shapes)
        if (!next_page(shapes))
            return false;
    if (!shapes->decoded && !decode(shapes))
        return false;
    do {
        if (shapes->index >= shapes->page.shapes || !next_shape(shapes, shape))
            return false;
    } while (shape->place != place);
    return true;
}

bool shapes_at(struct shapes *shapes, const struct source *source, uint64_t place, struct shape *shape)
{
    if (find(shapes, place, shape))
        return true;
    name_print(stderr, source->name);
    fputs(": the file changed while it was read. Try again when no program writes to it.\n", stderr);
    return false;
}
