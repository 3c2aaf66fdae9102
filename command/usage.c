/* usage.c: how the command is used, and what it says when it is used wrongly. */
#include "usage.h"

#include <stdio.h>
#include <string.h>

#include "name.h"

static const char help[] =
    "boundary: looks into boundary files, which keep parish outlines in pages.\n"
    "\n"
    "  boundary check FILE...            says of each file whether it is sound\n"
    "  boundary list FILE [QUERY]        a table of the shapes that the query hits\n"
    "  boundary show FILE PLACE [FORM]   one shape: its type, its parts, its coordinates\n"
    "  boundary draw FILE [QUERY]        a map as a picture in SVG, on standard output\n"
    "  boundary stats FILE               what is in a file, and how tightly it is packed\n"
    "  boundary --help, --version\n"
    "\n"
    "QUERY is --spot X Y, or --window X0 Y0 X1 Y1 with X0 at most X1 and Y0 at most Y1. Without one\n"
    "everything is meant. A shape is hit if its box and the query share a point, edges included.\n"
    "FORM is --wkt or --geojson. PLACE is a shape's position in the file. Places and pages are counted\n"
    "from 0. A FILE that is - is read from standard input; ./- is a file of that name.\n"
    "\n"
    "Exit status: 0 all is well; 1 a file was read and is refused; 2 wrong use, a question that cannot be\n"
    "asked (a query that is not finite or is reversed, a place that no shape has), a file that cannot be\n"
    "read, or output that cannot be written. Where 'check' meets both, it ends with 2.\n"
    "\n"
    "'list' and 'show' open only the pages they need, and say nothing of damage in the others: 'check' does.\n";

bool usage_asked(int count, char **words)
{
    for (int i = 0; i < count; i++)
        if (strcmp(words[i], "--help") == 0)
            return true;
    return false;
}

enum status usage_help(void)
{
    fputs(help, stdout);
    return STATUS_GOOD;
}

enum status usage_version(void)
{
    puts("boundary 1.0, for boundary files of edition 1");
    return STATUS_GOOD;
}

enum status usage_wrong(const char *what, const char *word)
{
    fprintf(stderr, "boundary: %s", what);
    if (word != NULL) {
        fputs(": ", stderr);
        name_print(stderr, word);
    }
    fputs("\nTry 'boundary --help'.\n", stderr);
    return STATUS_WRONG;
}
