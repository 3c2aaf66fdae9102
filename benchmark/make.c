/* Boundary files made in memory. */
#include "make.h"

/* The pattern of a float. */
static uint64_t pattern(double x)
{
    uint64_t p;
    memcpy(&p, &x, 8);
    return p;
}

void put_number(struct made *f, size_t bytes, uint64_t x)
{
    memcpy(f->bytes + f->len, &x, bytes);
    f->len += bytes;
}

/* The six bytes before a block's body. */
static void put_head(struct made *f, size_t len, unsigned kind)
{
    put_number(f, 4, len);
    put_number(f, 2, kind);
}

void begin(struct made *f)
{
    f->len = f->pages = f->shapes = 0;
    put_head(f, 2, FIRST_KIND);
    put_number(f, 2, 1);
}

void end(struct made *f)
{
    put_head(f, 8, LAST_KIND);
    put_number(f, 4, f->pages);
    put_number(f, 4, f->shapes);
}

void shape(struct draft *d, uint32_t number, unsigned type)
{
    d->registers[d->shapes] = number;
    d->types[d->shapes] = (uint8_t)type;
    d->part_counts[d->shapes++] = 0;
}

void part(struct draft *d, size_t n, const double *xy)
{
    d->part_counts[d->shapes - 1]++;
    d->part_lengths[d->parts++] = (uint16_t)n;
    for (size_t i = 0; i < n; i++) {
        d->x[d->vertices] = pattern(xy[2 * i]);
        d->y[d->vertices++] = pattern(xy[2 * i + 1]);
    }
}

void box_up(struct draft *d)
{
    memset(d->box, 0, sizeof d->box);
    for (size_t k = 0; k < 2; k++) {
        int met = 0;
        for (size_t i = 0; i < d->vertices; i++) {
            double at = value(k == 0 ? d->x[i] : d->y[i]);
            if (!isfinite(at))
                continue;
            d->box[k] = !met || at < d->box[k] ? at : d->box[k];
            d->box[2 + k] = !met || at > d->box[2 + k] ? at : d->box[2 + k];
            met = 1;
        }
    }
}

/* A column of the page; one of more values than a column has is left out. */
static size_t put_column(uint8_t *room, const uint64_t *vs, size_t n)
{
    return n > MOST ? 0 : plain_write(vs, n, room, MOST_BYTES);
}

void put_page(struct made *f, const struct draft *d)
{
    static uint8_t x[MOST_BYTES], y[MOST_BYTES];
    size_t x_len = put_column(x, d->x, d->vertices), y_len = put_column(y, d->y, d->vertices);
    put_head(f, BESIDE_LISTS + 7 * d->shapes + 2 * d->parts + x_len + y_len, PAGE_KIND);
    put_number(f, 2, d->shapes);
    put_number(f, 2, d->vertices);
    put_number(f, 2, d->parts);
    for (size_t i = 0; i < 4; i++)
        put_number(f, 8, pattern(d->box[i]));
    for (size_t i = 0; i < d->shapes; i++)
        put_number(f, 4, d->registers[i]);
    for (size_t i = 0; i < d->shapes; i++)
        put_number(f, 1, d->types[i]);
    for (size_t i = 0; i < d->shapes; i++)
        put_number(f, 2, d->part_counts[i]);
    for (size_t i = 0; i < d->parts; i++)
        put_number(f, 2, d->part_lengths[i]);
    put_number(f, 4, x_len);
    put_number(f, 4, y_len);
    memcpy(f->bytes + f->len, x, x_len);
    memcpy(f->bytes + f->len + x_len, y, y_len);
    f->len += x_len + y_len;
    f->pages++;
    f->shapes += d->shapes;
}

void sample(struct made *f)
{
    static const double ring[] = {0, 0, 0, 10, 10, 10, 10, 0, 0, 0}, spot[] = {20, 5}, line[] = {-5, -5, -1, -1};
    struct draft zero = {0}, one = {0};
    shape(&zero, 101, 3);
    part(&zero, 5, ring);
    shape(&zero, 102, 1);
    part(&zero, 1, spot);
    box_up(&zero);
    shape(&one, 101, 2);
    part(&one, 2, line);
    shape(&one, 103, 0);
    box_up(&one);
    begin(f);
    put_page(f, &zero);
    put_page(f, &one);
    end(f);
}

void mixture(struct made *f)
{
    static const double shell[] = {0, 0, 0, 9, 9, 9, 9, 0, 0, 0}, hole[] = {1, 1, 2, 1, 1, 2, 1, 1}, second[] = {-0.0, -9, -3, -0.0, 4, -2, -0.0, -9};
    static const double line[] = {9, 9, 9.5, -1}, spots[] = {-2, 7, 3, 3}, ring[] = {20, 0, 30, 0, 20, 0.5, 20, 0};
    struct draft zero = {0}, one = {0}, two = {0};
    shape(&zero, 1, MULTIPOLYGON);
    part(&zero, 5, shell);
    part(&zero, 4, hole);
    part(&zero, 4, second);
    shape(&zero, 2, 5);
    part(&zero, 2, line);
    part(&zero, 2, line);
    shape(&zero, 3, 0);
    shape(&zero, 4, 4);
    part(&zero, 1, spots);
    part(&zero, 1, spots + 2);
    shape(&zero, 5, 3);
    part(&zero, 4, ring);
    part(&zero, 4, hole);
    shape(&zero, 6, 2);
    part(&zero, 2, spots);
    box_up(&zero);
    shape(&one, 7, 0);
    shape(&one, 8, 0);
    shape(&two, 9, 1);
    part(&two, 1, (double[]){0, -0.0});
    box_up(&two);
    begin(f);
    put_page(f, &zero);
    put_page(f, &one);
    put_page(f, &two);
    end(f);
}

size_t put_query(uint8_t *room, size_t floats, const double *values)
{
    uint32_t len = (uint32_t)(8 * floats);
    uint16_t kind = QUERY_KIND;
    memcpy(room, &len, 4);
    memcpy(room + 4, &kind, 2);
    if (floats > 0)
        memcpy(room + HEAD, values, len);
    return HEAD + len;
}
