/* memory.h: memory, or a line on standard error. */
#ifndef MEMORY_H
#define MEMORY_H

#include <stddef.h>

/* Room for so many things of a size, all zero; also for none. Null, with a line on standard error, where there is not enough. */
void *memory_take(size_t count, size_t size);

#endif
