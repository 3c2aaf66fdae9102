/* source.h: the bytes of a file. A file is mapped, and not copied; standard input and pipes are read into memory. */
#ifndef SOURCE_H
#define SOURCE_H

#include <stdbool.h>
#include <stddef.h>
#include <stdint.h>

struct source {
    const char *name;     /* for messages */
    const uint8_t *bytes; /* never null, also where there are none */
    size_t len;
    void *mapped, *held; /* what must be given back, or null */
};

/* Opens what a name names, - being standard input. Where that fails it says so on standard error. */
bool source_open(struct source *source, const char *name);

/* Gives back what was taken. */
void source_close(struct source *source);

#endif
