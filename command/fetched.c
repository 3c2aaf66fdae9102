/* fetched.c: one shape, fetched by the library. */
#include "fetched.h"

uint64_t fetched_at(struct fetched *rooms, const struct source *source, uint64_t place, struct shape *shape)
{
    uint64_t word = boundary_fetch(source->bytes, source->len, place, rooms->about, BOUNDARY_WORDS, rooms->lens, BOUNDARY_MOST_VALUES,
                                   rooms->xs, BOUNDARY_MOST_VALUES, rooms->ys, BOUNDARY_MOST_VALUES);
    if (BOUNDARY_NUMBER(word) == 0)
        *shape = (struct shape){
            .place = place,
            .register_number = (uint32_t)rooms->about[0],
            .type = (enum shape_type)rooms->about[1],
            .parts = (uint32_t)rooms->about[2],
            .vertices = (uint32_t)rooms->about[3],
            .lens = rooms->lens,
            .xs = rooms->xs,
            .ys = rooms->ys,
        };
    return word;
}
