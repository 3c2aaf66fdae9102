/* source.c: the bytes of a file. A file is mapped, and not copied; standard input and pipes are read into memory. */
#include "source.h"

#include <errno.h>
#include <fcntl.h>
#include <stdio.h>
#include <stdlib.h>
#include <string.h>
#include <sys/mman.h>
#include <sys/stat.h>
#include <unistd.h>

#include "name.h"

enum { FIRST_ROOM = 65536 };

/* What is lent where there are no bytes: the library asks for a pointer all the same. */
static const uint8_t no_bytes[1];

/* Says what could not be done. */
static bool failed(const char *name, const char *what, int number)
{
    name_print(stderr, name);
    fprintf(stderr, ": cannot be %s: %s.\n", what, strerror(number));
    return false;
}

/* Twice the room, or null with errno set; the old room stays the caller's then. */
static uint8_t *grown(uint8_t *held, size_t *room)
{
    if (*room > SIZE_MAX / 2) {
        errno = ENOMEM;
        return NULL;
    }
    uint8_t *more = realloc(held, *room * 2);
    if (more != NULL)
        *room *= 2;
    return more;
}

/* Reads to the end. Gives 0, or the error's number with nothing held. */
static int read_all(int from, struct source *source)
{
    size_t room = FIRST_ROOM, len = 0;
    uint8_t *held = malloc(room);
    if (held == NULL)
        return ENOMEM;
    for (;;) {
        if (len == room) {
            uint8_t *more = grown(held, &room);
            if (more == NULL)
                break;
            held = more;
        }
        ssize_t got = read(from, held + len, room - len);
        if (got == 0) {
            source->held = held;
            source->bytes = held;
            source->len = len;
            return 0;
        }
        if (got < 0 && errno != EINTR)
            break;
        len += got > 0 ? (size_t)got : 0;
    }
    int number = errno;
    free(held);
    return number;
}

/* Maps an open file of so many bytes. Gives 0, or the error's number. */
static int map_all(int from, off_t size, struct source *source)
{
    if (size == 0)
        return 0;
    if ((uintmax_t)size > SIZE_MAX)
        return EFBIG;
    void *mapped = mmap(NULL, (size_t)size, PROT_READ, MAP_PRIVATE, from, 0);
    if (mapped == MAP_FAILED)
        return errno;
    source->mapped = mapped;
    source->bytes = mapped;
    source->len = (size_t)size;
    return 0;
}

/* Takes the bytes of an open file by what it is. Gives 0, or the error's number. */
static int take(int from, struct source *source)
{
    struct stat about;
    if (fstat(from, &about) != 0)
        return errno;
    return S_ISREG(about.st_mode) ? map_all(from, about.st_size, source) : read_all(from, source);
}

bool source_open(struct source *source, const char *name)
{
    *source = (struct source){.name = name, .bytes = no_bytes};
    if (strcmp(name, "-") == 0) {
        source->name = "standard input";
        int number = read_all(STDIN_FILENO, source);
        return number == 0 || failed(source->name, "read", number);
    }
    int from = open(name, O_RDONLY | O_CLOEXEC);
    if (from < 0)
        return failed(name, "opened", errno);
    int number = take(from, source);
    close(from);
    return number == 0 || failed(name, "read", number);
}

void source_close(struct source *source)
{
    if (source->mapped != NULL)
        munmap(source->mapped, source->len);
    free(source->held);
    *source = (struct source){.name = source->name, .bytes = no_bytes};
}
