/* vertex.h: which vertex of which shape a value of a page's column is. For a file whose frame the library has passed,
 * and a page whose tables it has passed. Every length is looked at again before it is used, so that other bytes give no
 * vertex, or a wrong one, at worst. */
#ifndef VERTEX_H
#define VERTEX_H

#include <stdint.h>

#include "source.h"

/* A vertex: its shape's place in the file and register, the part of the shape, and the vertex of that part. All but the
 * register are counted from 0. */
struct vertex {
    uint64_t place;
    uint32_t register_number, part, vertex;
};

/* What a value is: a vertex; the one behind the last vertex of the page; or not to be found. */
enum vertex_found { VERTEX_FOUND, VERTEX_BEHIND, VERTEX_LOST };

/* Finds the vertex that a value of a page's x or y column belongs to, page and value counted from 0. `vertex` is set
 * where it is found. */
enum vertex_found vertex_find(const struct source *source, uint32_t page, uint32_t value, struct vertex *vertex);

#endif
