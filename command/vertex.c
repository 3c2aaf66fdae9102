/* vertex.c: which vertex of which shape a value of a page's column is. */
#include "vertex.h"

#include <stdbool.h>

#include "layout.h"
#include "pattern.h"

/* Finds a page, and how many shapes the pages before it have. */
static bool find_page(const struct source *source, uint32_t number, struct layout_page *page, uint64_t *before)
{
    struct layout walk = layout_start(source);
    *before = 0;
    for (uint32_t i = 0; layout_next(&walk, page); i++) {
        if (i == number)
            return true;
        *before += page->shapes;
    }
    return false;
}

/* In which group an index lies, where groups of these sizes, two bytes each, follow one another: `groups` where it lies
 * in none. The index becomes that within the group. */
static uint32_t group_of(const uint8_t *sizes, uint32_t groups, uint32_t *index)
{
    for (uint32_t i = 0; i < groups; i++) {
        uint32_t size = load16(sizes + 2 * i);
        if (*index < size)
            return i;
        *index -= size;
    }
    return groups;
}

enum vertex_found vertex_find(const struct source *source, uint32_t page, uint32_t value, struct vertex *vertex)
{
    struct layout_page found;
    uint64_t before;
    if (!find_page(source, page, &found, &before) || value > found.vertices)
        return VERTEX_LOST;
    if (value == found.vertices)
        return VERTEX_BEHIND;
    uint32_t within = value, part = group_of(found.lens, found.parts, &within);
    if (part == found.parts)
        return VERTEX_LOST;
    uint32_t shape = group_of(found.counts, found.shapes, &part);
    if (shape == found.shapes)
        return VERTEX_LOST;
    *vertex = (struct vertex){before + shape, load32(found.registers + 4 * shape), part, within};
    return VERTEX_FOUND;
}
