/* The search that only counts, in plain C: it opens the pages whose stored box meets the query, and looks at the box of each shape in them. */
#include "page.h"

/* A query: a refusal's number or 0, and everything, or a window; a spot is a window of one point. */
struct query {
    unsigned number;
    int everything;
    struct box window;
};

/* The query of a block of kind 4 that takes exactly these bytes. */
static struct query query_of(const uint8_t *s, size_t len)
{
    struct query q = {.number = BAD_QUERY};
    if (len < HEAD || load32(s) != len - HEAD || load16(s + 4) != QUERY_KIND)
        return q;
    const uint8_t *body = s + HEAD;
    switch (len - HEAD) {
    case 0:
        return (struct query){.everything = 1};
    case 16:
        q.window = (struct box){value(load(body)), value(load(body + 8)), value(load(body)), value(load(body + 8))};
        break;
    case 32:
        q.window = box_at(body);
        break;
    default:
        return q;
    }
    q.number = box_formed(&q.window) ? 0 : BAD_QUERY;
    return q;
}

/* Whether two boxes share a point. */
static int meet(const struct box *a, const struct box *b)
{
    return a->least_x <= b->greatest_x && b->least_x <= a->greatest_x && a->least_y <= b->greatest_y && b->least_y <= a->greatest_y;
}

/* Whether so many vertices with a box meet a query. */
static int meets(const struct query *q, size_t vertices, const struct box *b)
{
    return q->everything || (vertices > 0 && meet(&q->window, b));
}

/* How many shapes of a page whose contents passed meet a window. */
static size_t hits_in(const struct page *page, const struct vertices *vs, const struct box *window)
{
    size_t hits = 0, part = 0, from = 0;
    for (size_t s = 0; s < page->shapes; s++) {
        size_t to = from;
        for (size_t end = part + load16(page->part_counts + 2 * s); part < end; part++)
            to += load16(page->part_lengths + 2 * part);
        if (to > from) {
            struct box b = box_of(vs, from, to);
            hits += (size_t)meet(window, &b);
        }
        from = to;
    }
    return hits;
}

uint64_t plain_count(const uint8_t *query, size_t query_len, const uint8_t *file, size_t len)
{
    struct vertices vs;
    struct query q = query_of(query, query_len);
    if (q.number != 0)
        return ANSWER(q.number, 0);
    struct frame f = plain_frame(file, len);
    if (f.number != 0)
        return ANSWER(f.number, f.pages);
    const uint8_t *body = file + FIRST_BODY;
    size_t hits = 0;
    for (size_t i = 0; i < f.pages; i++) {
        body = next_body(body);
        struct page page = page_at(body);
        if (!meets(&q, page.vertices, &page.box))
            continue;
        unsigned no = plain_contents(&page, &vs);
        if (no != 0)
            return ANSWER(no, i);
        hits += q.everything ? page.shapes : hits_in(&page, &vs, &q.window);
    }
    return hits;
}
