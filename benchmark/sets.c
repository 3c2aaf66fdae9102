/* Real columns read from a file, and columns made at a given width. */
#include "sets.h"
#include "rules.h"
#include <stdio.h>
#include <stdlib.h>

/* About how many values a made set has, and the most columns. */
enum { MADE_VALUES = 16384, MADE_COLUMNS = 1024 };

uint64_t any(void)
{
    static uint64_t state = 1;
    state += 0x9E3779B97F4A7C15;
    uint64_t x = state;
    x = (x ^ x >> 30) * 0xBF58476D1CE4E5B9;
    x = (x ^ x >> 27) * 0x94D049BB133111EB;
    return x ^ x >> 31;
}

/* Memory, or the end of the run. */
static void *room_for(size_t bytes)
{
    void *p = malloc(bytes + 1);
    if (p == NULL) {
        fprintf(stderr, "bench: out of memory\n");
        exit(1);
    }
    return p;
}

/* Takes the values and the bytes over as one more column, in memory of just their size. */
static void add(struct set *set, const uint64_t *vs, size_t n, const uint8_t *bytes, size_t len)
{
    struct column c = {n, len, room_for(8 * n), room_for(len)};
    memcpy(c.vs, vs, 8 * n);
    memcpy(c.bytes, bytes, len);
    set->columns = realloc(set->columns, (set->count + 1) * sizeof c);
    if (set->columns == NULL) {
        fprintf(stderr, "bench: out of memory\n");
        exit(1);
    }
    set->columns[set->count++] = c;
    set->values += n;
}

void free_set(struct set *set)
{
    for (size_t i = 0; i < set->count; i++) {
        free(set->columns[i].vs);
        free(set->columns[i].bytes);
    }
    free(set->columns);
}

struct set real_set(const char *name, const char *path)
{
    static uint64_t vs[MOST];
    static uint8_t bytes[MOST_BYTES];
    struct set set = {.name = ""};
    uint64_t n;
    snprintf(set.name, sizeof set.name, "%s", name);
    FILE *f = fopen(path, "rb");
    if (f == NULL) {
        fprintf(stderr, "bench: %s cannot be opened\n", path);
        exit(1);
    }
    while (fread(&n, 8, 1, f) == 1) {
        if (n > MOST || fread(vs, 8, n, f) != n) {
            fprintf(stderr, "bench: %s is not a file of columns\n", path);
            exit(1);
        }
        add(&set, vs, n, bytes, plain_write(vs, n, bytes, sizeof bytes));
    }
    fclose(f);
    return set;
}

/* Puts the w low bits of x at a place, over bits that are 0, and gives the place after them. */
static size_t put(uint8_t *bytes, size_t at, unsigned w, uint64_t x)
{
    for (unsigned b = 0; b < w; b++, at++)
        bytes[at / 8] |= (uint8_t)((x >> b & 1) << at % 8);
    return at;
}

/* Writes the column of vs at width w, in full each value that is marked or must be, and gives its length. */
static size_t write_at(const uint64_t *vs, size_t n, unsigned w, const uint8_t *full, uint8_t *bytes)
{
    uint64_t m = marker(w);
    memset(bytes, 0, MOST_BYTES);
    size_t at = put(bytes, put(bytes, 0, 8, w), 64, vs[0]);
    for (size_t i = 1; i < n; i++) {
        uint64_t z = zigzag(vs[i - 1], vs[i]);
        int step = z < m && !full[i];
        at = put(bytes, at, w, step ? z : m);
        if (!step)
            at = put(bytes, at, 64, vs[i]);
    }
    return (at + 7) / 8;
}

/* A zigzag that is below the marker of width w and not below that of w - 1; w is 1 to 64. */
static uint64_t needing(unsigned w)
{
    uint64_t least = marker(w - 1);
    return least + any() % (marker(w) - least);
}

/* The value after a in a column of width w: one that stands in full is any value, or one that a step would have reached. */
static uint64_t value_after(uint64_t a, unsigned w, int full)
{
    return w == 0 || (full && any() % 2 == 0) ? any() : a + unzigzag(needing(w));
}

/* Columns of n values at width w, of which about `fulls` in eight stand in full; then, in all but the shortest, one step is the marker itself. */
static struct set made_set(unsigned w, size_t n, unsigned fulls)
{
    static uint64_t vs[MOST];
    static uint8_t full[MOST], bytes[MOST_BYTES];
    struct set set = {.name = ""};
    size_t count = MADE_VALUES / n < MADE_COLUMNS ? MADE_VALUES / n : MADE_COLUMNS;
    for (size_t c = 0; c < count; c++) {
        vs[0] = any();
        for (size_t i = 1; i < n; i++) {
            full[i] = w == 0 || any() % 8 < fulls;
            vs[i] = value_after(vs[i - 1], w, full[i]);
            if (fulls > 0 && n > 2 && i == n / 2)
                vs[i] = vs[i - 1] + unzigzag(marker(w));
        }
        add(&set, vs, n, bytes, write_at(vs, n, w, full, bytes));
    }
    return set;
}

struct set steps_set(unsigned w, size_t n)
{
    struct set set = made_set(w, n, 0);
    snprintf(set.name, sizeof set.name, "%zu %s, width %u", n, w == 0 ? "in full" : "steps", w);
    return set;
}

struct set mixed_set(unsigned w, size_t n)
{
    struct set set = made_set(w, n, 1);
    snprintf(set.name, sizeof set.name, "%zu, 1 in 8 full, width %u", n, w);
    return set;
}
