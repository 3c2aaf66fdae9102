/* usage.h: how the command is used, and what it says when it is used wrongly. */
#ifndef USAGE_H
#define USAGE_H

#include <stdbool.h>

#include "status.h"

/* Whether one of the words is --help. */
bool usage_asked(int count, char **words);

/* Prints how the command is used. */
enum status usage_help(void);

/* Prints the version. */
enum status usage_version(void);

/* Says on standard error what is wrong, and of which word where there is one. */
enum status usage_wrong(const char *what, const char *word);

#endif
