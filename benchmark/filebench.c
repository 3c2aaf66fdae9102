/* filebench NAME FILE ..: checks that ours and plain answer the same on boundary files and on damaged copies of them, and then says how long the
 * full check and the count-only search take.
 *
 * Ours are boundary_check and boundary_count, from an object of their own. A time is the best of many passes, in processor time: a pass over a
 * large file is long, and others take the processor away meanwhile. The two take turns, so that what disturbs one disturbs both. A search is timed over many queries: spots and small windows that lie in a grid over the file's extent. How many
 * pages are opened is counted by the plain version. */
#include "damage.h"
#include "make.h"
#include <stdio.h>
#include <stdlib.h>
#include <time.h>

/* How long a pass should take at least, and how long a call is measured on a file, in nanoseconds; and the least rounds of both. */
static const double PASS = 200e3, TIME = 600e6;
enum { LEAST_ROUNDS = 16 };

/* About how many bytes of damaged copies are tried, and the most and the least copies. */
enum { DAMAGED_BYTES = 1 << 25, MOST_COPIES = 2000, LEAST_COPIES = 16 };

/* How many queries there are to a side of the grid, and what part of the extent a window takes. */
enum { SIDE = 16, PART = 64 };

enum { OURS, PLAIN, VERSIONS };

static check_call *const checks[VERSIONS] = {boundary_check, plain_check};
static count_call *const counts[VERSIONS] = {boundary_count, plain_count};

/* Queries that are timed together: each the block of as many floats. */
struct queries {
    size_t count, len;
    uint8_t blocks[SIDE * SIDE][QUERY_ROOM];
};

/* ---- files */

/* Ends the run. */
static void fail(const char *what, const char *path)
{
    fprintf(stderr, "filebench: %s %s\n", path, what);
    exit(1);
}

/* Room for so many bytes and some that are not all zero behind them. */
static void make_room(struct file *f, size_t len)
{
    f->len = len;
    f->bytes = malloc(len + SPARE);
    if (f->bytes == NULL)
        fail("does not fit into the memory", f->name);
    for (size_t i = 0; i < SPARE; i++)
        f->bytes[len + i] = (uint8_t)i;
}

/* The box of two boxes. */
static struct box joined(struct box a, struct box b)
{
    return (struct box){fmin(a.least_x, b.least_x), fmin(a.least_y, b.least_y), fmax(a.greatest_x, b.greatest_x), fmax(a.greatest_y, b.greatest_y)};
}

/* What a file has, which must be sound. */
static void describe(struct file *f)
{
    uint64_t got = plain_check(f->bytes, f->len);
    if (NUMBER_OF(got) != 0)
        fail("is refused by plain C", f->name);
    f->shapes = COUNT_OF(got);
    f->pages = plain_frame(f->bytes, f->len).pages;
    if (f->pages == 0)
        fail("has no page", f->name);
    const uint8_t *body = f->bytes + FIRST_BODY;
    for (size_t i = 0; i < f->pages; i++) {
        f->bodies[i] = body = next_body(body);
        struct page p = page_at(body);
        if (p.vertices > 0)
            f->extent = f->vertices == 0 ? p.box : joined(f->extent, p.box);
        f->vertices += p.vertices;
    }
}

/* A file that stands at a path. */
static struct file load_file(const char *name, const char *path)
{
    struct file f = {.name = name};
    FILE *in = fopen(path, "rb");
    long size = in == NULL || fseek(in, 0, SEEK_END) != 0 ? -1 : ftell(in);
    if (size < 0)
        fail("is not to be read", path);
    rewind(in);
    make_room(&f, (size_t)size);
    if (fread(f.bytes, 1, f.len, in) != f.len)
        fail("is not to be read", path);
    fclose(in);
    describe(&f);
    return f;
}

/* A file that was made in memory. */
static struct file made_file(const char *name, void make(struct made *))
{
    static struct made made;
    struct file f = {.name = name};
    make(&made);
    make_room(&f, made.len);
    memcpy(f.bytes, made.bytes, made.len);
    describe(&f);
    return f;
}

/* ---- queries */

/* Spots (2 floats) or windows (4 floats) in a grid over the file's extent. */
static struct queries grid_of(const struct file *f, size_t floats)
{
    struct queries q = {.count = SIDE * SIDE};
    double wide = f->extent.greatest_x - f->extent.least_x, high = f->extent.greatest_y - f->extent.least_y;
    for (size_t i = 0; i < q.count; i++) {
        double x = f->extent.least_x + wide * ((double)(i % SIDE) + 0.5) / SIDE, y = f->extent.least_y + high * ((double)(i / SIDE) + 0.5) / SIDE;
        q.len = put_query(q.blocks[i], floats, (double[]){x, y, x + wide / PART, y + high / PART});
    }
    return q;
}

/* ---- times */

/* The processor time of this run so far. */
static double now(void)
{
    struct timespec t;
    clock_gettime(CLOCK_PROCESS_CPUTIME_ID, &t);
    return 1e9 * (double)t.tv_sec + (double)t.tv_nsec;
}

/* All queries, or the full check where there are none, by one version: the sum of the answers. */
static uint64_t once(unsigned version, const struct file *f, const struct queries *q)
{
    if (q == NULL)
        return checks[version](f->bytes, f->len);
    uint64_t sum = 0;
    for (size_t i = 0; i < q->count; i++)
        sum += counts[version](q->blocks[i], q->len, f->bytes, f->len);
    return sum;
}

/* How long that takes, so many times. */
static double passed(unsigned version, const struct file *f, const struct queries *q, size_t times)
{
    uint64_t sum = 0;
    double from = now();
    for (size_t t = 0; t < times; t++)
        sum += once(version, f, q);
    double took = now() - from;
    __asm__ volatile("" ::"r"(sum));
    return took;
}

/* The best time of each version. */
static void timed(const struct file *f, const struct queries *q, double best[VERSIONS])
{
    double one = passed(PLAIN, f, q, 1), until = now() + TIME;
    size_t times = one < PASS ? (size_t)(PASS / one) + 1 : 1;
    best[OURS] = best[PLAIN] = INFINITY;
    for (unsigned round = 0; round < LEAST_ROUNDS || now() < until; round++)
        for (unsigned v = 0; v < VERSIONS; v++)
            best[v] = fmin(best[v], passed(v, f, q, times) / (double)times);
}

/* ---- what is printed */

static void check_row(const struct file *f)
{
    double t[VERSIONS];
    timed(f, NULL, t);
    double n = (double)f->vertices, b = (double)f->len;
    printf("%-24s %9zu %6zu %7zu %9zu | %7.2f %7.2f | %7.0f %7.0f | %7.2f\n", f->name, f->len, f->pages, f->shapes, f->vertices, t[OURS] / n, t[PLAIN] / n,
           1e3 * b / t[OURS], 1e3 * b / t[PLAIN], t[OURS] / t[PLAIN]);
    fflush(stdout);
}

static void search_row(const struct file *f, const char *kind, size_t floats)
{
    struct queries q = grid_of(f, floats);
    double t[VERSIONS], n = (double)q.count;
    size_t before = plain_opened;
    uint64_t hits = once(PLAIN, f, &q);
    double opened = (double)(plain_opened - before) / n;
    if (once(OURS, f, &q) != hits)
        fail("has other hits by ours", f->name);
    timed(f, &q, t);
    printf("%-24s %-8s %7zu %6zu %8.2f %8.2f | %9.2f %9.2f | %7.2f\n", f->name, kind, q.count, f->pages, opened, (double)hits / n, t[OURS] / n / 1e3,
           t[PLAIN] / n / 1e3, t[OURS] / t[PLAIN]);
    fflush(stdout);
}

/* The answers on the file and on damaged copies, and how often each number was given. */
static void agreed(struct file *f)
{
    struct seen seen = {{0}};
    size_t copies = DAMAGED_BYTES / f->len;
    same_answers(f, copies < LEAST_COPIES ? LEAST_COPIES : copies > MOST_COPIES ? MOST_COPIES : copies, &seen);
    printf("%-24s", f->name);
    for (unsigned no = 0; no < sizeof seen.by_number / sizeof *seen.by_number; no++)
        if (seen.by_number[no] > 0)
            printf(" %u: %u", no, seen.by_number[no]);
    printf("\n");
    fflush(stdout);
}

int main(int argc, char **argv)
{
    static struct file files[32];
    size_t count = (size_t)argc / 2;
    if (argc % 2 == 0 || count > sizeof files / sizeof *files) {
        fprintf(stderr, "usage: filebench NAME FILE ..\n");
        return 2;
    }
    for (size_t i = 0; i < count; i++)
        files[i] = load_file(argv[2 * i + 1], argv[2 * i + 2]);
    struct file first = made_file("sample", sample), second = made_file("mixture", mixture);
    printf("Sound and damaged copies on which both answer the same, by the refusal's number (0: sound)\n");
    agreed(&first);
    agreed(&second);
    free(first.bytes);
    free(second.bytes);
    for (size_t i = 0; i < count; i++)
        agreed(&files[i]);
    printf("\n%-24s %9s %6s %7s %9s | %-15s | %-15s | %s\n", "Full check", "", "", "", "", "ns for a vertex", "MB in a second", "ours by");
    printf("%-24s %9s %6s %7s %9s | %7s %7s | %7s %7s | %7s\n", "", "bytes", "pages", "shapes", "vertices", "ours", "plain", "ours", "plain", "plain");
    for (size_t i = 0; i < count; i++)
        check_row(&files[i]);
    printf("\n%-24s %-8s %7s %6s %-17s | %-19s | %s\n", "Search, counting", "", "", "", "for each query", "us for a query", "ours by");
    printf("%-24s %-8s %7s %6s %8s %8s | %9s %9s | %7s\n", "", "", "queries", "pages", "opened", "hits", "ours", "plain", "plain");
    for (size_t i = 0; i < count; i++) {
        search_row(&files[i], "spots", 2);
        search_row(&files[i], "windows", 4);
        free(files[i].bytes);
    }
    return 0;
}
