/* main NAME FILE ..: checks that ours, plain and tuned agree on real and on made columns, and then says how long each takes.
 *
 * NAME FILE: real columns under a name, as columns.py writes them. Times are nanoseconds for each value, the best of many passes over all
 * columns of a set; the versions take turns, so that what disturbs one disturbs all. */
#include "agree.h"
#include <stdio.h>
#include <stdlib.h>
#include <string.h>
#include <time.h>

/* How long a pass should take at least, and how long a set is measured, in nanoseconds. */
static const double PASS = 50e3, MADE_TIME = 120e6, REAL_TIME = 2000e6;

/* Writes are slow and have no goal: they are timed in one round of so many. */
enum { WRITE_ROUNDS = 16 };

/* What is timed: each call over all columns of a set, and a copy of as many values for comparison. */
enum { READ, PLAIN_READ, TUNED_READ, DECODE, TUNED_DECODE, STEPS, PLAIN_STEPS, TUNED_STEPS, WRITE, PLAIN_WRITE, TUNED_WRITE, COPY, CALLS };

static read_call *const reads[CALLS] = {measure_read, plain_read, tuned_read, measure_decode, tuned_decode};
static steps_call *const runs[CALLS] = {[STEPS] = measure_steps, [PLAIN_STEPS] = plain_steps, [TUNED_STEPS] = tuned_steps};
static write_call *const writes[CALLS] = {[WRITE] = measure_write, [PLAIN_WRITE] = plain_write, [TUNED_WRITE] = tuned_write};

/* Nanoseconds for each value, by call. */
struct times {
    double best[CALLS];
};

static double now(void)
{
    struct timespec t;
    clock_gettime(CLOCK_MONOTONIC, &t);
    return 1e9 * (double)t.tv_sec + (double)t.tv_nsec;
}

/* One call over a column; the answer was checked before. */
static void once(unsigned call, const struct column *c)
{
    static uint64_t values[MOST];
    static uint8_t bytes[MOST_BYTES];
    if (call == COPY) {
        memcpy(values, c->vs, 8 * c->n);
        __asm__ volatile("" ::"r"(values) : "memory");
    } else if (reads[call] != NULL) {
        reads[call](c->bytes, c->len, c->n, values, MOST);
    } else if (runs[call] != NULL) {
        uint64_t sum = runs[call](c->bytes, c->len, c->n);
        __asm__ volatile("" ::"r"(sum));
    } else {
        writes[call](c->vs, c->n, bytes, sizeof bytes);
    }
}

/* How long one call takes over all columns of a set, so many times. */
static double passed(unsigned call, const struct set *set, size_t times)
{
    double from = now();
    for (size_t t = 0; t < times; t++)
        for (size_t i = 0; i < set->count; i++)
            once(call, &set->columns[i]);
    return now() - from;
}

/* The best time of each call over a set. */
static struct times timed(const struct set *set, double budget)
{
    struct times best;
    size_t times[CALLS];
    for (unsigned call = 0; call < CALLS; call++) {
        double one = passed(call, set, 1);
        times[call] = one < PASS ? (size_t)(PASS / one) + 1 : 1;
        best.best[call] = one;
    }
    double until = now() + budget;
    for (unsigned round = 0; now() < until; round++)
        for (unsigned call = 0; call < CALLS; call++) {
            if (writes[call] != NULL && round % WRITE_ROUNDS != 0)
                continue;
            double t = passed(call, set, times[call]) / (double)times[call];
            if (t < best.best[call])
                best.best[call] = t;
        }
    for (unsigned call = 0; call < CALLS; call++)
        best.best[call] /= (double)set->values;
    return best;
}

/* ---- what is printed */

static void heading(const char *what)
{
    printf("\n%s\n%-30s %6s | %-32s | %-25s | %-32s | %-34s | %s\n", what, "", "", "read", "decode into scratch", "one value a call", "write", "copy");
    printf("%-30s %6s | %5s %5s %5s %7s %6s | %5s %5s %6s %6s | %5s %5s %5s %7s %6s | %6s %6s %5s %7s %6s | %5s\n", "", "values", "ours", "plain", "tuned", "/plain", "/tuned",
           "ours", "tuned", "/plain", "/tuned", "ours", "plain", "tuned", "/plain", "/tuned", "ours", "plain", "tuned", "/plain", "/tuned", "");
}

static void row(const struct set *set, const struct times *times)
{
    const double *t = times->best;
    printf("%-30s %6zu | %5.2f %5.2f %5.2f %7.2f %6.2f | %5.2f %5.2f %6.2f %6.2f | %5.2f %5.2f %5.2f %7.2f %6.2f | %6.1f %6.1f %5.2f %7.2f %6.1f | %5.2f\n", set->name, set->values,
           t[READ], t[PLAIN_READ], t[TUNED_READ], t[READ] / t[PLAIN_READ], t[READ] / t[TUNED_READ], t[DECODE], t[TUNED_DECODE],
           t[DECODE] / t[PLAIN_READ], t[DECODE] / t[TUNED_DECODE], t[STEPS], t[PLAIN_STEPS],
           t[TUNED_STEPS], t[STEPS] / t[PLAIN_STEPS], t[STEPS] / t[TUNED_STEPS], t[WRITE], t[PLAIN_WRITE], t[TUNED_WRITE], t[WRITE] / t[PLAIN_WRITE],
           t[WRITE] / t[TUNED_WRITE], t[COPY]);
    fflush(stdout);
}

/* ---- the goals: a ratio that should not be passed, how often it was, and the worst case */
struct goal {
    const char *what;
    double most;
    unsigned cases, over;
    double worst;
    char where[48];
};

static struct goal real_read = {.what = "real columns, read, ours by plain", .most = 0.8};
static struct goal real_decode = {.what = "real columns, decode, ours by tuned", .most = 1.1};
static struct goal made_read = {.what = "made columns, read, ours by plain", .most = 1.2};

static void look(struct goal *g, double ratio, const struct set *set)
{
    g->cases++;
    g->over += ratio > g->most;
    if (ratio > g->worst) {
        g->worst = ratio;
        memcpy(g->where, set->name, sizeof g->where);
    }
}

static void say(const struct goal *g)
{
    printf("%-36s at most %.1f: over in %u of %u, worst %.2f (%s)\n", g->what, g->most, g->over, g->cases, g->worst, g->where);
}

/* ---- what is measured */

static void measure_real(const char *name, const char *path)
{
    struct set set = real_set(name, path);
    agree(&set);
    struct times t = timed(&set, REAL_TIME);
    row(&set, &t);
    look(&real_read, t.best[READ] / t.best[PLAIN_READ], &set);
    look(&real_decode, t.best[DECODE] / t.best[TUNED_DECODE], &set);
    free_set(&set);
}

/* A made set; it is shown where that is asked for, or where it is over the goal. */
static void measure_made(struct set set, int shown)
{
    agree(&set);
    struct times t = timed(&set, MADE_TIME);
    double ratio = t.best[READ] / t.best[PLAIN_READ];
    look(&made_read, ratio, &set);
    if (shown || ratio > made_read.most)
        row(&set, &t);
    free_set(&set);
}

/* Every width at every length. */
static void measure_all_made(void)
{
    static const size_t lengths[] = {2, 32, 200, MOST};
    for (size_t l = 0; l < sizeof lengths / sizeof *lengths; l++) {
        for (unsigned w = 0; w <= 64; w++)
            measure_made(steps_set(w, lengths[l]), w % 8 == 0 || w == 1 || w == 57);
        for (unsigned w = 16; w <= 64; w += 16)
            measure_made(mixed_set(w, lengths[l]), 1);
    }
}

int main(int argc, char **argv)
{
    if (argc % 2 == 0) {
        fprintf(stderr, "usage: main NAME FILE ..\n");
        return 2;
    }
    printf("Nanoseconds for each value, best of many. /plain and /tuned: ours by theirs.\n");
    heading("Real columns");
    for (int i = 1; i + 1 < argc; i += 2)
        measure_real(argv[i], argv[i + 1]);
    heading("Made columns: some widths, and all that are over the goal");
    measure_all_made();
    printf("\n");
    say(&real_read);
    say(&real_decode);
    say(&made_read);
    return 0;
}
