/* refused.c: prints the command's line on a refusal, for words and files that need not belong together.
 *
 *     refused WORD FILE...
 *
 * The word is in hexadecimal. Of each file there is a line for its first 0, 1, 2 bytes and so on, up to all of them.
 * These lie in memory of their own with nothing behind them, so that the compiler's watch sees a read that goes on. */
#include <stdio.h>
#include <stdlib.h>
#include <string.h>

#include "refusal.h"
#include "source.h"

/* The line for the first bytes of a file. */
static int print_start(const struct source *source, size_t len, uint64_t word)
{
    uint8_t *bytes = malloc(len);
    if (bytes == NULL && len > 0)
        return 1;
    if (len > 0)
        memcpy(bytes, source->bytes, len);
    struct source start = {.name = source->name, .bytes = bytes, .len = len};
    refusal_print(stdout, &start, word);
    free(bytes);
    return 0;
}

int main(int count, char **words)
{
    int wrong = count < 3;
    for (int i = 2; i < count && !wrong; i++) {
        struct source source;
        wrong = !source_open(&source, words[i]);
        for (size_t len = 0; !wrong && len <= source.len; len++)
            wrong = print_start(&source, len, strtoull(words[1], NULL, 16));
        source_close(&source);
    }
    return wrong;
}
