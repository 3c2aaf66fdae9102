/* memory.c: memory, or a line on standard error. */
#include "memory.h"

#include <stdio.h>
#include <stdlib.h>

void *memory_take(size_t count, size_t size)
{
    void *taken = calloc(count > 0 ? count : 1, size);
    if (taken == NULL)
        fputs("boundary: there is not enough memory.\n", stderr);
    return taken;
}
