/* check.c: 'boundary check FILE...', a line for each file. */
#include <inttypes.h>
#include <stdio.h>
#include <string.h>

#include "boundary.h"
#include "layout.h"
#include "name.h"
#include "progress.h"
#include "refusal.h"
#include "source.h"
#include "subcommands.h"
#include "usage.h"

/* The line on a file that was read. */
static enum status say(const struct source *source, uint64_t word)
{
    if (BOUNDARY_NUMBER(word) != 0) {
        refusal_print(stdout, source, word);
        return refusal_status(word);
    }
    name_print(stdout, source->name);
    printf(": sound, %" PRIu32 " pages, %" PRIu32 " shapes\n", layout_pages(source), BOUNDARY_SAYS(word));
    return STATUS_GOOD;
}

/* Checks the file of a position among so many. */
static enum status check_one(char **words, int at, int count)
{
    struct source source;
    progress_show(at, count, words[at]);
    bool open = source_open(&source, words[at]);
    uint64_t word = open ? boundary_check(source.bytes, source.len) : 0;
    progress_clear(count);
    if (!open)
        return STATUS_WRONG;
    enum status status = say(&source, word);
    source_close(&source);
    return status;
}

/* Whether the words are files, and standard input is there at most once. */
static bool are_files(int count, char **words)
{
    int inputs = 0;
    for (int i = 0; i < count; i++) {
        if (words[i][0] == '-' && words[i][1] != '\0') {
            usage_wrong("this option is not known here", words[i]);
            return false;
        }
        inputs += strcmp(words[i], "-") == 0;
    }
    if (count == 0 || inputs > 1)
        usage_wrong(count == 0 ? "name a file, or - for standard input" : "standard input can be read once", NULL);
    return count > 0 && inputs <= 1;
}

enum status check_run(int count, char **words)
{
    enum status worst = STATUS_GOOD;
    if (!are_files(count, words))
        return STATUS_WRONG;
    for (int i = 0; i < count; i++) {
        enum status status = check_one(words, i, count);
        worst = status > worst ? status : worst;
    }
    return worst;
}
