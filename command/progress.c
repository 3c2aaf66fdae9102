/* progress.c: a line on standard error while many files are checked, where that is a terminal. */
#include "progress.h"

#include <stdbool.h>
#include <stdio.h>
#include <unistd.h>

#include "name.h"

enum { MANY = 8 };

/* Whether there is anyone to show it to, and anything to wait for. */
static bool shown(int of)
{
    return of >= MANY && isatty(STDERR_FILENO);
}

void progress_show(int done, int of, const char *name)
{
    if (!shown(of))
        return;
    fprintf(stderr, "\r\033[Kchecking %d of %d: ", done + 1, of);
    name_print(stderr, name);
    fflush(stderr);
}

void progress_clear(int of)
{
    if (!shown(of))
        return;
    fputs("\r\033[K", stderr);
    fflush(stderr);
}
