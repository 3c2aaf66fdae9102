/* stack SAMPLE: how much of its thread's stack each call touches. Each is made on a stack of its own that was painted before, and the paint that is left is
 * counted. Prints a line for each, and fails where one touched more than BOUNDARY_STACK. SAMPLE is the sample file of the format's description. */
#define _XOPEN_SOURCE 700
#include "boundary.h"

#include <stdio.h>
#include <string.h>
#include <ucontext.h>

#define PAINTED (1u << 20)

static uint8_t paint[PAINTED];
static ucontext_t here, there;
static uint8_t sample[512], buffer[65536];
static size_t len;
static uint64_t answer;

/* Everything, and a column of 2,048 values in full, and what it is read to. */
static const uint8_t everything[6] = {0, 0, 0, 0, 4, 0};
static uint8_t column[BOUNDARY_COLUMN_ROOM(BOUNDARY_MOST_VALUES)];
static uint64_t values[BOUNDARY_MOST_VALUES], words[BOUNDARY_WORDS];
static uint32_t places[8];

static void do_nothing(void)
{
    answer = 0;
}

static void do_check(void)
{
    answer = boundary_check(sample, len);
}

static void do_count(void)
{
    answer = boundary_count(everything, sizeof everything, sample, len);
}

static void do_search(void)
{
    answer = boundary_search(everything, sizeof everything, sample, len, places, 8);
}

/* The first shape of the sample file: a Polygon of one ring of five vertices. */
static void do_fetch(void)
{
    static uint16_t lens[8];
    static uint64_t xs[8], ys[8];
    answer = boundary_fetch(sample, len, 0, words, BOUNDARY_WORDS, lens, 8, xs, 8, ys, 8);
}

static void do_column_write(void)
{
    answer = boundary_column_write(values, BOUNDARY_MOST_VALUES, column, sizeof column);
}

static void do_column_read(void)
{
    answer = boundary_column_read(column, sizeof column, BOUNDARY_MOST_VALUES, values, BOUNDARY_MOST_VALUES);
}

static void do_column_step(void)
{
    memset(words, 0, sizeof words);
    while ((answer = boundary_column_step(column, sizeof column, BOUNDARY_MOST_VALUES, words, BOUNDARY_WORDS)) == 1)
        continue;
}

static void do_open(void)
{
    answer = boundary_open(words, BOUNDARY_WORDS, buffer, sizeof buffer);
}

/* A page of one MultiPolygon of one ring, which every rule looks at. */
static void do_page(void)
{
    static const uint32_t registers[1] = {1};
    static const uint8_t types[1] = {6};
    static const uint16_t counts[1] = {1}, lens[1] = {4};
    static const uint64_t xs[4] = {0, 0, UINT64_C(0x3FF0000000000000), 0}, ys[4] = {0, UINT64_C(0x3FF0000000000000), 0, 0};
    answer = boundary_page(words, BOUNDARY_WORDS, buffer, sizeof buffer, registers, 1, types, 1, counts, 1, lens, 1, xs, 4, ys, 4);
}

static void do_close(void)
{
    answer = boundary_close(words, BOUNDARY_WORDS, buffer, sizeof buffer);
}

static void do_check_made(void)
{
    answer = boundary_check(buffer, (size_t)words[0]);
}

/* Makes a call on the painted stack, and counts what it touched: the stack goes down, so what is left of the paint is at its start. */
static size_t touched(void (*call)(void))
{
    size_t left = 0;
    memset(paint, 0x5A, sizeof paint);
    if (getcontext(&there) != 0)
        return PAINTED;
    there.uc_stack.ss_sp = paint;
    there.uc_stack.ss_size = sizeof paint;
    there.uc_link = &here;
    makecontext(&there, call, 0);
    if (swapcontext(&here, &there) != 0)
        return PAINTED;
    while (left < sizeof paint && paint[left] == 0x5A)
        left++;
    return sizeof paint - left;
}

/* Says how much a call touched beyond what an empty one does. */
static int within(const char *name, void (*call)(void), uint64_t right)
{
    size_t none = touched(do_nothing), all = touched(call);
    size_t own = all > none ? all - none : 0;
    printf("%s: %zu bytes of stack\n", name, own);
    if (own <= BOUNDARY_STACK && answer == right)
        return 1;
    printf("%s FAILED: the answer was %llx\n", name, (unsigned long long)answer);
    return 0;
}

int main(int argc, char **argv)
{
    size_t i;
    int all;
    FILE *f = argc == 2 ? fopen(argv[1], "rb") : NULL;
    if (f == NULL) {
        printf("usage: stack SAMPLE\n");
        return 1;
    }
    len = fread(sample, 1, sizeof sample, f);
    fclose(f);
    for (i = 0; i < BOUNDARY_MOST_VALUES; i++)
        values[i] = (uint64_t)(i % 2) << 63;
    all = within("check", do_check, 4);
    all &= within("count", do_count, 4);
    all &= within("search", do_search, 4);
    all &= within("fetch", do_fetch, 5);
    all &= within("column_write", do_column_write, sizeof column);
    all &= within("column_read", do_column_read, BOUNDARY_MOST_VALUES);
    all &= within("column_step", do_column_step, 0);
    all &= within("open", do_open, 0);
    all &= within("page", do_page, 0);
    all &= within("close", do_close, 0);
    all &= within("check of that file", do_check_made, 1);
    return all ? 0 : 1;
}
