/* name.c: names from outside (files, words of the command line), printed so that they stay on their line. */
#include "name.h"

void name_print(FILE *out, const char *name)
{
    for (const char *c = name; *c != '\0'; c++) {
        unsigned char byte = (unsigned char)*c;
        putc(byte < 0x20 || byte == 0x7F ? '?' : byte, out);
    }
}
