/* layout.c: the pages of a file as they lie in its bytes (docs/FORMAT.md). */
#include "layout.h"

#include "boundary.h"
#include "pattern.h"

enum {
    HEAD = 6,         /* bytes before a block's body: its length and its kind */
    FIRST_BLOCK = 8,  /* bytes of the first block */
    PAGE_KIND = 2,    /* of a page's block */
    COUNTS_LEN = 6,   /* shapes, vertices, parts */
    BOX_LEN = 32,     /* four floats */
    FIXED_LEN = 46,   /* a page's body without its lists and columns */
    END_BODY = 8      /* pages and shapes */
};

struct layout layout_start(const struct source *source)
{
    if (source->len < FIRST_BLOCK)
        return (struct layout){source->bytes, 0};
    return (struct layout){source->bytes + FIRST_BLOCK, source->len - FIRST_BLOCK};
}

/* The counts and the box at the start of a page's body, of 46 bytes or more. False where a count is over its limit. */
static bool read_head(const uint8_t *body, struct layout_page *page)
{
    page->shapes = load16(body);
    page->vertices = load16(body + 2);
    page->parts = load16(body + 4);
    for (unsigned i = 0; i < 4; i++)
        page->box[i] = value_of(load(body + COUNTS_LEN + 8 * i, 8));
    return page->shapes <= BOUNDARY_MOST_PAGE_SHAPES && page->vertices <= BOUNDARY_MOST_VALUES && page->parts <= page->vertices;
}

/* The tables and columns in a page's body. False where they do not fill it exactly. */
static bool read_body(const uint8_t *body, size_t len, struct layout_page *page)
{
    if (len < FIXED_LEN || !read_head(body, page))
        return false;
    size_t shapes = page->shapes, parts = page->parts, lists = 7 * shapes + 2 * parts;
    if (len - FIXED_LEN < lists)
        return false;
    page->registers = body + COUNTS_LEN + BOX_LEN;
    page->types = page->registers + 4 * shapes;
    page->counts = page->types + shapes;
    page->lens = page->counts + 2 * shapes;
    const uint8_t *column_lens = page->lens + 2 * parts;
    page->x_len = load32(column_lens);
    page->y_len = load32(column_lens + 4);
    page->x = column_lens + 8;
    size_t columns = len - FIXED_LEN - lists;
    if (page->x_len > columns || page->y_len != columns - page->x_len)
        return false;
    page->y = page->x + page->x_len;
    return true;
}

bool layout_next(struct layout *walk, struct layout_page *page)
{
    if (walk->left < HEAD || load16(walk->at + 4) != PAGE_KIND)
        return false;
    size_t len = load32(walk->at);
    if (walk->left - HEAD < len || !read_body(walk->at + HEAD, len, page))
        return false;
    page->block_len = HEAD + len;
    walk->at += page->block_len;
    walk->left -= page->block_len;
    return true;
}

/* One of the two counts at the file's end. */
static uint32_t end_count(const struct source *source, size_t before_end)
{
    return source->len < END_BODY ? 0 : load32(source->bytes + source->len - before_end);
}

uint32_t layout_pages(const struct source *source)
{
    return end_count(source, 8);
}

uint32_t layout_shapes(const struct source *source)
{
    return end_count(source, 4);
}
