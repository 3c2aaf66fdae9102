/* plain.c: a shape for people. */
#include <inttypes.h>
#include <stdio.h>

#include "forms.h"
#include "number.h"
#include "rings.h"

/* Prints numbers with a space between them. */
static void print_numbers(const double *values, int count)
{
    char text[NUMBER_ROOM];
    for (int i = 0; i < count; i++) {
        number_text(text, values[i]);
        printf("%s%s", i > 0 ? " " : "", text);
    }
    putchar('\n');
}

/* What the shape is. */
static void print_head(const struct shape *shape)
{
    struct box box;
    printf("place     %" PRIu64 "\nregister  %" PRIu32 "\ntype      %s\n", shape->place, shape->register_number, shape_type_name(shape->type));
    printf("parts     %" PRIu32 "\nvertices  %" PRIu32 "\n", shape->parts, shape->vertices);
    if (!shape_box(shape, &box))
        return;
    printf("box       ");
    print_numbers((double[]){box.least_x, box.least_y, box.greatest_x, box.greatest_y}, 4);
}

/* What a part is. `polygons` counts the polygons that were opened so far. */
static void print_part_head(const struct shape *shape, uint32_t part, uint32_t first, uint32_t *polygons)
{
    printf("\npart %" PRIu32 ", %u %s", part, shape->lens[part], shape->lens[part] == 1 ? "vertex" : "vertices");
    if (shape_has_rings(shape->type)) {
        bool opens = rings_opens(shape, part, first);
        *polygons += opens;
        printf(", %s of polygon %" PRIu32, opens ? "shell" : "hole", *polygons - 1);
    }
    putchar('\n');
}

void plain_print(const struct shape *shape)
{
    uint32_t at = 0, polygons = 0;
    print_head(shape);
    for (uint32_t part = 0; part < shape->parts; part++) {
        print_part_head(shape, part, at, &polygons);
        for (uint32_t end = at + shape->lens[part]; at < end; at++)
            print_numbers((double[]){shape_x(shape, at), shape_y(shape, at)}, 2);
    }
}
