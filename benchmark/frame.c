/* The frame of a boundary file in plain C: one walk, block by block, and the rules of a block in their order. */
#include "page.h"

/* A block, and a refusal's number where its six bytes or its body are not there. */
struct block {
    unsigned number, kind;
    size_t len;
    const uint8_t *body;
};

/* The block at the start of some bytes. */
static struct block block_at(const uint8_t *s, size_t len)
{
    if (len < HEAD || len - HEAD < load32(s))
        return (struct block){.number = LENGTH};
    return (struct block){0, load16(s + 4), load32(s), s + HEAD};
}

/* The first block: its kind, its length, the edition. */
static unsigned first_rules(const struct block *b)
{
    if (b->kind != FIRST_KIND)
        return KIND;
    if (b->len != 2)
        return LENGTH;
    return load16(b->body) == 1 ? 0 : KIND;
}

/* Whether a page's counts are within their limits. */
static int counts_allowed(size_t shapes, size_t vertices, size_t parts)
{
    return 1 <= shapes && shapes <= MOST_SHAPES && vertices <= MOST && parts <= vertices && (parts > 0 || vertices == 0);
}

/* The box that stands in a page: all zero bytes where it has no vertex. */
static unsigned box_rule(const uint8_t *s, size_t vertices)
{
    static const uint8_t zeros[32];
    if (vertices == 0)
        return memcmp(s, zeros, 32) == 0 ? 0 : BOX_FORM;
    struct box b = box_at(s);
    return box_formed(&b) ? 0 : BOX_FORM;
}

/* A page block: its least length, its counts, its exact length, the form of its box. */
static unsigned page_rules(const struct block *b)
{
    if (b->len < BEFORE_LISTS)
        return LENGTH;
    size_t shapes = load16(b->body), vertices = load16(b->body + 2), parts = load16(b->body + 4);
    if (!counts_allowed(shapes, vertices, parts))
        return COUNTS;
    size_t before = BESIDE_LISTS + 7 * shapes + 2 * parts;
    if (b->len < before)
        return LENGTH;
    const uint8_t *lengths = b->body + before - 8;
    if (b->len - before != (uint64_t)load32(lengths) + load32(lengths + 4))
        return LENGTH;
    return box_rule(b->body + 6, vertices);
}

/* The last block: its length, its counts, and that no bytes follow. */
static unsigned last_rules(const struct block *b, const struct frame *f, size_t after)
{
    if (b->len != 8)
        return LENGTH;
    if (load32(b->body) != f->pages || load32(b->body + 4) != f->shapes)
        return COUNTS;
    return after == 0 ? 0 : LENGTH;
}

/* The blocks after the first one. */
static struct frame walk(const uint8_t *s, size_t len)
{
    struct frame f = {0, 0, 0};
    for (;;) {
        struct block b = block_at(s, len);
        f.number = b.number;
        if (f.number != 0)
            return f;
        s += HEAD + b.len;
        len -= HEAD + b.len;
        if (b.kind == LAST_KIND) {
            f.number = last_rules(&b, &f, len);
            return f;
        }
        if (b.kind != PAGE_KIND)
            f.number = KIND;
        else if (f.pages == MOST_PAGES)
            f.number = MANY;
        else
            f.number = page_rules(&b);
        if (f.number != 0)
            return f;
        f.pages++;
        f.shapes += load16(b.body);
    }
}

struct frame plain_frame(const uint8_t *file, size_t len)
{
    struct block b = block_at(file, len);
    unsigned no = b.number != 0 ? b.number : first_rules(&b);
    if (no != 0)
        return (struct frame){no, 0, 0};
    return walk(file + HEAD + b.len, len - HEAD - b.len);
}
