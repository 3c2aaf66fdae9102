/* filetest: the plain version by itself. The sample file of the format's description, a refusal of each number, and many damaged copies, on
 * which the check and the search for everything must answer the same. Ends with 'N passed, M failed'; the status is 0 only where M is 0. */
#include "make.h"
#include "sets.h"
#include <stdio.h>
#include <stdlib.h>

static unsigned passed, failed;

/* Counts one test: the answer that was got and the one that is right. */
static void expect(const char *what, uint64_t got, unsigned number, size_t count)
{
    if (got == ANSWER(number, count)) {
        passed++;
        return;
    }
    failed++;
    printf("%s: got %u, %u; it should be %u, %zu\n", what, NUMBER_OF(got), COUNT_OF(got), number, count);
}

/* A copy in memory of just its size, so that a sanitizer sees a read past its end. */
static uint8_t *exact(const uint8_t *bytes, size_t len)
{
    uint8_t *copy = malloc(len > 0 ? len : 1);
    if (copy == NULL)
        exit(1);
    memcpy(copy, bytes, len);
    return copy;
}

static uint64_t check(const uint8_t *bytes, size_t len)
{
    uint8_t *copy = exact(bytes, len);
    uint64_t got = plain_check(copy, len);
    free(copy);
    return got;
}

static uint64_t count_block(const uint8_t *query, size_t query_len, const uint8_t *bytes, size_t len)
{
    uint8_t *q = exact(query, query_len), *copy = exact(bytes, len);
    uint64_t got = plain_count(q, query_len, copy, len);
    free(q);
    free(copy);
    return got;
}

static uint64_t count(size_t floats, const double *values, const uint8_t *bytes, size_t len)
{
    uint8_t query[QUERY_ROOM];
    return count_block(query, put_query(query, floats, values), bytes, len);
}

/* ---- the sample file and its queries */

/* The hits of a query in the sample, and how many pages it opens. */
static void hits(const char *what, size_t floats, const double *values, size_t right, size_t opened)
{
    struct made f;
    sample(&f);
    size_t before = plain_opened;
    expect(what, count(floats, values, f.bytes, f.len), 0, right);
    expect(what, plain_opened - before, 0, opened);
}

static void sample_tests(void)
{
    struct made f;
    sample(&f);
    expect("sample", check(f.bytes, f.len), 0, 4);
    struct frame frame = plain_frame(f.bytes, f.len);
    expect("sample, pages", frame.pages, 0, 2);
    hits("window 0,0,10,10", 4, (double[]){0, 0, 10, 10}, 1, 1);
    hits("spot 10,10", 2, (double[]){10, 10}, 1, 1);
    hits("spot 10.5,5", 2, (double[]){10.5, 5}, 0, 1);
    hits("spot -0,0", 2, (double[]){-0.0, 0}, 1, 1);
    hits("everything", 0, NULL, 4, 2);
    hits("window -1,-1,0,0", 4, (double[]){-1, -1, -0.0, 0}, 2, 2);
    hits("spot 20,5", 2, (double[]){20, 5}, 1, 1);
    hits("spot far away", 2, (double[]){1e300, 0}, 0, 0);
    hits("spot to the left", 2, (double[]){-6, 5}, 0, 0);
    hits("spot above", 2, (double[]){5, 11}, 0, 0);
    hits("spot below", 2, (double[]){-3, -6}, 0, 0);
    hits("window that ends at a corner", 4, (double[]){-9, -9, -5, -5}, 1, 1);
    hits("window that begins at a corner", 4, (double[]){20, 10, 21, 11}, 0, 1);
    hits("window of all", 4, (double[]){-1e300, -1e300, 1e300, 1e300}, 3, 2);
}

/* Queries that are refused, before the file is looked at. */
static void query_tests(void)
{
    struct made f;
    sample(&f);
    uint8_t q[QUERY_ROOM + 1] = {0};
    size_t len = put_query(q, 4, (double[]){0, 0, 10, 10});
    expect("query too long", count_block(q, len + 1, f.bytes, f.len), 1, 0);
    for (size_t cut = 0; cut < len; cut++)
        expect("query cut", count_block(q, cut, f.bytes, f.len), 1, 0);
    for (unsigned kind = 0; kind < 6; kind++) {
        q[4] = (uint8_t)kind;
        expect("query's kind", count_block(q, len, f.bytes, f.len), kind == 4 ? 0 : 1, kind == 4 ? 1 : 0);
    }
    expect("query of one float", count(1, (double[]){0}, f.bytes, f.len), 1, 0);
    expect("query of three floats", count(3, (double[]){0, 0, 0}, f.bytes, f.len), 1, 0);
    expect("query reversed in x", count(4, (double[]){1, 0, 0, 1}, f.bytes, f.len), 1, 0);
    expect("query reversed in y", count(4, (double[]){0, 1, 1, 0}, f.bytes, 0), 1, 0);
    expect("query not finite", count(2, (double[]){0, INFINITY}, f.bytes, f.len), 1, 0);
    expect("query not a number", count(2, (double[]){NAN, 0}, f.bytes, f.len), 1, 0);
    expect("no file", count(0, NULL, f.bytes, 0), 4, 0);
}

/* The other made file: the parts of every type, and -0 where it may be. */
static void mixture_tests(void)
{
    static struct made f;
    mixture(&f);
    expect("mixture", check(f.bytes, f.len), 0, 9);
    expect("mixture, everything", count(0, NULL, f.bytes, f.len), 0, 9);
    expect("mixture, spot 0,0", count(2, (double[]){0, -0.0}, f.bytes, f.len), 0, 2);
    expect("mixture, spot 9,9", count(2, (double[]){9, 9}, f.bytes, f.len), 0, 2);
}

/* ---- frames */

/* The sample with so many bytes at a place set to a number: what the check says, and what a search says that opens no page. */
static void poked(const char *what, size_t at, size_t bytes, uint64_t x, unsigned number, size_t page)
{
    struct made f;
    sample(&f);
    memcpy(f.bytes + at, &x, bytes);
    expect(what, check(f.bytes, f.len), number, page);
    uint64_t far = count(2, (double[]){1e300, 0}, f.bytes, f.len);
    int of_frame = 0 < number && number <= BOX_FORM;
    expect(what, far, of_frame ? number : 0, of_frame ? page : 0);
}

/* The places in the sample: the first page's block, the second one's and the last block. */
static size_t second_page(void)
{
    struct made f;
    sample(&f);
    return 8 + HEAD + load32(f.bytes + 8);
}

static void frame_tests(void)
{
    struct made f;
    sample(&f);
    size_t zero = 8, one = second_page(), last = f.len - 14;
    for (size_t cut = 0; cut < f.len; cut++)
        expect("cut", check(f.bytes, cut), 4, cut < one ? 0 : cut < last ? 1 : 2);
    f.bytes[f.len] = 0;
    expect("a byte after the end", check(f.bytes, f.len + 1), 4, 2);
    poked("first kind", 4, 2, 2, 5, 0);
    poked("first length", 0, 4, 3, 4, 0);
    poked("first length 1", 0, 4, 1, 4, 0);
    poked("first length over all", 0, 4, 0xFFFFFFFF, 4, 0);
    poked("edition", 6, 2, 2, 5, 0);
    poked("edition's high byte", 6, 2, 0x101, 5, 0);
    poked("page's kind", one + 4, 2, 1, 5, 1);
    poked("page's kind 4", zero + 4, 2, 4, 5, 0);
    poked("page's length 37", one, 4, 37, 4, 1);
    poked("page's length 38", one, 4, 38, 4, 1);
    poked("page's length past the end", one, 4, 0x10000, 4, 1);
    poked("no shape", zero + 6, 2, 0, 6, 0);
    poked("257 shapes", zero + 6, 2, 257, 6, 0);
    poked("3 shapes, not as long", zero + 6, 2, 3, 4, 0);
    poked("2049 vertices", zero + 8, 2, 2049, 6, 0);
    poked("more parts than vertices", one + 10, 2, 3, 6, 1);
    poked("no part for vertices", one + 10, 2, 0, 6, 1);
    poked("box not finite", zero + 12, 8, 0x7FF0000000000000, 7, 0);
    poked("box not a number", one + 20, 8, 0xFFF8000000000001, 7, 1);
    poked("box with an infinite greatest x", zero + 28, 8, 0x7FF0000000000000, 7, 0);
    poked("box with an infinite least y", one + 20, 8, 0xFFF0000000000000, 7, 1);
    poked("box reversed in x", zero + 12, 8, 0x4050000000000000, 7, 0);
    poked("box reversed in y", zero + 20, 8, 0x4050000000000000, 7, 0);
    poked("box not that of the vertices", zero + 12, 8, 1, 16, 0);
    poked("box with the other zero", zero + 12, 8, 0x8000000000000000, 0, 4);
    poked("last kind", last + 4, 2, 0, 5, 2);
    poked("last block as a page", last + 4, 2, 2, 4, 2);
    poked("last length", last, 4, 7, 4, 2);
    poked("pages", last + 6, 4, 3, 6, 2);
    poked("shapes", last + 10, 4, 3, 6, 2);
    poked("type over 6", zero + HEAD + 38 + 8, 1, 7, 11, 0);
    poked("part count", zero + HEAD + 38 + 8 + 2, 2, 2, 11, 0);
    poked("part length", zero + HEAD + 38 + 8 + 2 + 4, 2, 6, 11, 0);
    poked("width over 64", zero + HEAD + 46 + 14 + 4, 1, 65, 8, 0);
}

/* Frames with no page, with as many as may be, and with one too many. */
static void page_count_tests(void)
{
    static struct made f;
    struct draft d = {0};
    shape(&d, 1, 0);
    begin(&f);
    end(&f);
    expect("no page", check(f.bytes, f.len), 0, 0);
    for (size_t pages = MOST_PAGES; pages <= MOST_PAGES + 1; pages++) {
        begin(&f);
        for (size_t i = 0; i < pages; i++)
            put_page(&f, &d);
        end(&f);
        expect("so many pages", check(f.bytes, f.len), pages > MOST_PAGES ? 3 : 0, MOST_PAGES);
        expect("everything in so many", count(0, NULL, f.bytes, f.len), pages > MOST_PAGES ? 3 : 0, MOST_PAGES);
        expect("a window in so many", count(2, (double[]){0, 0}, f.bytes, f.len), pages > MOST_PAGES ? 3 : 0, pages > MOST_PAGES ? MOST_PAGES : 0);
    }
    size_t before = plain_opened;
    d.types[0] = 7;
    begin(&f);
    put_page(&f, &d);
    end(&f);
    expect("a page with no vertex is damaged", check(f.bytes, f.len), 11, 0);
    expect("a spot where its box would be", count(2, (double[]){0, 0}, f.bytes, f.len), 0, 0);
    expect("only the check opened it", plain_opened - before, 0, 1);
    d.types[0] = 0;
    d.box[3] = -0.0;
    begin(&f);
    put_page(&f, &d);
    end(&f);
    expect("no vertex, and a box that is not all zero bytes", check(f.bytes, f.len), 7, 0);
}

/* ---- pages */

/* A file of a sound page and then this one: what the check says. */
static void paged(const char *what, const struct draft *d, unsigned number)
{
    static struct made f;
    struct draft before = {0};
    shape(&before, 1, 1);
    part(&before, 1, (double[]){3, 4});
    box_up(&before);
    begin(&f);
    put_page(&f, &before);
    put_page(&f, d);
    end(&f);
    expect(what, check(f.bytes, f.len), number, number == 0 ? 1 + d->shapes : 1);
}

/* The page of one shape with one part. */
static void single(const char *what, unsigned type, size_t n, const double *xy, unsigned number)
{
    struct draft d = {0};
    shape(&d, 7, type);
    part(&d, n, xy);
    box_up(&d);
    paged(what, &d, number);
}

/* The page of one MultiPolygon of two triangles. */
static void two_rings(const char *what, const double *a, const double *b, unsigned number)
{
    struct draft d = {0};
    shape(&d, 7, MULTIPOLYGON);
    part(&d, 4, a);
    part(&d, 4, b);
    box_up(&d);
    paged(what, &d, number);
}

static void contents_tests(void)
{
    static const double left[] = {0, 0, 4, 0, 0, 4, 0, 0}, right[] = {0, 0, 0, 4, 4, 0, 0, 0}, open[] = {0, 0, 0, 4, 4, 0, 0, 1};
    static const double zeros[] = {0, 0, 0, 4, 4, 0, -0.0, 0}, flat[] = {0, 0, 1, 1, 2, 2, 0, 0}, half[] = {0, 0, 0, 4, 4.5, 0, 0, 0};
    static const double most[] = {0, 0, 0, 16777216, 16777216, 0, 0, 0}, more[] = {0, 0, 0, 16777217, 4, 0, 0, 0};
    static const double minus[] = {-0.0, 0, -16777216, -16777216, -4, 0, -0.0, 0}, wild[] = {0, 0, 0, 4, INFINITY, 0, 0, 1};
    static const double least[] = {0, 0, -16777217, 4, 4, 0, 0, 0}, huge[] = {0, 0, 0, 4, 1e300, 0, 0, 0}, nan[] = {0, NAN};
    for (unsigned type = 0; type <= 7; type++)
        for (size_t n = 1; n <= 4; n++) {
            size_t need = type == 2 || type == 5 ? 2 : type == 3 || type == 6 ? 4 : 1;
            int right_size = type == 1 || type == 4 ? n == 1 : type >= 1 && type <= 6 && n >= need;
            single("vertices of a type", type, n, right, right_size ? 0 : 11);
        }
    for (unsigned type = 1; type <= 6; type++) {
        struct draft d = {0};
        shape(&d, 7, type);
        paged("a type with no part", &d, 11);
        for (unsigned k = 0; k < 2; k++)
            part(&d, type == 1 || type == 4 ? 1 : 4, right);
        box_up(&d);
        paged("a type with two parts", &d, type <= 2 ? 11 : 0);
    }
    struct draft loose = {0};
    shape(&loose, 7, 2);
    part(&loose, 4, right);
    box_up(&loose);
    loose.parts++;
    paged("a part of no shape", &loose, 11);
    single("Polygon, either way", 3, 4, left, 0);
    single("Polygon open", 3, 4, open, 13);
    single("Polygon closed in value only", 3, 4, zeros, 13);
    single("Polygon flat", 3, 4, flat, 0);
    single("Polygon off grid", 3, 4, half, 0);
    single("LineString open", 2, 4, open, 0);
    single("not finite, and open", 3, 4, wild, 12);
    single("not a number", 1, 1, nan, 12);
    single("MultiPolygon", 6, 4, right, 0);
    single("MultiPolygon open", 6, 4, open, 13);
    single("MultiPolygon the wrong way", 6, 4, left, 15);
    single("MultiPolygon flat", 6, 4, flat, 15);
    single("MultiPolygon off grid by a half", 6, 4, half, 14);
    single("MultiPolygon at 2^24", 6, 4, most, 0);
    single("MultiPolygon over 2^24", 6, 4, more, 14);
    single("MultiPolygon under -2^24", 6, 4, least, 14);
    single("MultiPolygon far off", 6, 4, huge, 14);
    single("MultiPolygon at -2^24, and -0", 6, 4, minus, 0);
    two_rings("a hole", right, left, 0);
    two_rings("two polygons", right, right, 0);
    two_rings("a hole first", left, right, 15);
    two_rings("a second ring that is flat", right, flat, 15);
    two_rings("off grid before a turn", left, half, 14);
    two_rings("open before off grid", half, open, 13);
}

/* Each rule is looked at over the whole page before the next one. */
static void order_tests(void)
{
    static const double flat[] = {0, 0, 1, 1, 2, 2, 0, 0}, half[] = {0, 0, 0, 4, 4.5, 0, 0, 0}, open[] = {0, 0, 0, 4, 4, 0, 0, 1};
    struct draft d = {0};
    shape(&d, 1, MULTIPOLYGON);
    part(&d, 4, flat);
    box_up(&d);
    d.box[2] = 3;
    paged("turn before box", &d, 15);
    shape(&d, 2, MULTIPOLYGON);
    part(&d, 4, half);
    paged("grid before turn", &d, 14);
    shape(&d, 3, 3);
    part(&d, 4, open);
    paged("closed before grid", &d, 13);
    shape(&d, 4, 1);
    part(&d, 1, (double[]){5, -INFINITY});
    paged("finite before closed", &d, 12);
    shape(&d, 5, 7);
    paged("types before finite", &d, 11);
}

/* Pages at the limits of their size. */
static void size_tests(void)
{
    static struct draft d;
    static double xy[2 * (MOST + 1)];
    for (size_t i = 0; i < 2 * (MOST + 1); i++)
        xy[i] = (double)(any() % 1000);
    single("2048 vertices", 2, MOST, xy, 0);
    single("2049 vertices", 2, MOST + 1, xy, 6);
    for (size_t i = 0; i <= MOST_SHAPES; i++) {
        if (i == MOST_SHAPES) {
            box_up(&d);
            paged("256 shapes", &d, 0);
        }
        shape(&d, (uint32_t)i, 1);
        part(&d, 1, xy + 2 * i);
    }
    box_up(&d);
    paged("257 shapes", &d, 6);
    memset(&d, 0, sizeof d);
    shape(&d, 1, 4);
    for (size_t i = 0; i < MOST; i++)
        part(&d, 1, xy + 2 * i);
    box_up(&d);
    paged("2048 parts", &d, 0);
    d.box[0] -= 1;
    paged("a box too large", &d, 16);
    box_up(&d);
    d.box[3] -= 0.5;
    paged("a box too small", &d, 16);
}

/* A damaged page that a search does not open is not reported. */
static void unopened_tests(void)
{
    struct made f;
    sample(&f);
    memset(f.bytes + 8 + HEAD + 38, 0xFF, 14);
    expect("damage in page 0", check(f.bytes, f.len), 11, 0);
    expect("a search of page 1", count(2, (double[]){-2, -2}, f.bytes, f.len), 0, 1);
    expect("a search of page 0", count(2, (double[]){0, 0}, f.bytes, f.len), 11, 0);
    expect("everything", count(0, NULL, f.bytes, f.len), 11, 0);
    f.bytes[f.len - 1] = 1;
    expect("the frame comes first", count(2, (double[]){0, 0}, f.bytes, f.len), 6, 2);
}

/* Damaged copies of the sample: the check and the search for everything answer the same, and no byte past the end is read. */
static void damage_tests(size_t times)
{
    struct made f;
    unsigned seen[17] = {0};
    for (size_t t = 0; t < times; t++) {
        sample(&f);
        for (size_t k = any() % 3 + 1; k > 0; k--)
            f.bytes[any() % f.len] ^= (uint8_t)(any() % 4 == 0 ? 1u << any() % 8 : any());
        uint64_t got = check(f.bytes, f.len);
        expect("everything in a damaged copy", count(0, NULL, f.bytes, f.len), NUMBER_OF(got), COUNT_OF(got));
        count(2, (double[]){5, 5}, f.bytes, f.len);
        if (NUMBER_OF(got) < 17)
            seen[NUMBER_OF(got)]++;
    }
    printf("damaged copies by refusal:");
    for (unsigned no = 0; no < 17; no++)
        if (seen[no] > 0)
            printf(" %u: %u", no, seen[no]);
    printf("\n");
}

int main(void)
{
    sample_tests();
    mixture_tests();
    query_tests();
    frame_tests();
    page_count_tests();
    contents_tests();
    order_tests();
    size_tests();
    unopened_tests();
    damage_tests(20000);
    printf("%u passed, %u failed\n", passed, failed);
    return failed == 0 ? 0 : 1;
}
