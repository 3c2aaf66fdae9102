/* main.c: picks the subcommand. */
#include <string.h>

#include "output.h"
#include "subcommands.h"
#include "usage.h"

struct subcommand {
    const char *name;
    enum status (*run)(int count, char **words);
};

static const struct subcommand subcommands[] = {
    {"check", check_run}, {"list", list_run}, {"show", show_run}, {"draw", draw_run}, {"stats", stats_run},
};

/* Does what the words ask. */
static enum status run(int count, char **words)
{
    if (count == 0)
        return usage_wrong("say what to do: check, list, show, draw or stats", NULL);
    if (usage_asked(count, words))
        return usage_help();
    if (strcmp(words[0], "--version") == 0)
        return count == 1 ? usage_version() : usage_wrong("--version stands alone", NULL);
    for (size_t i = 0; i < sizeof subcommands / sizeof subcommands[0]; i++)
        if (strcmp(words[0], subcommands[i].name) == 0)
            return subcommands[i].run(count - 1, words + 1);
    return usage_wrong("there is no such subcommand", words[0]);
}

int main(int count, char **words)
{
    output_begin();
    enum status status = count < 1 ? usage_wrong("say what to do", NULL) : run(count - 1, words + 1);
    return (int)output_end(status);
}
