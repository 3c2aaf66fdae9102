/* name.h: names from outside (files, words of the command line), printed so that they stay on their line. */
#ifndef NAME_H
#define NAME_H

#include <stdio.h>

/* Prints a name; a control character in it becomes a question mark. */
void name_print(FILE *out, const char *name);

#endif
