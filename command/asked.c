/* asked.c: the words behind a subcommand of one file, taken apart. */
#include "asked.h"

#include <ctype.h>
#include <errno.h>
#include <stdlib.h>
#include <string.h>

#include "usage.h"

/* The words, what is wanted of them, and how far they were read. */
struct reading {
    struct asked *asked;
    char **words;
    int count, at;
    enum takes takes;
    bool queried, formed, placed;
};

/* Says what is wrong. */
static bool wrong(const char *what, const char *word)
{
    usage_wrong(what, word);
    return false;
}

/* A coordinate. What is not finite is for the library to refuse. */
static bool coordinate(const char *word, double *value)
{
    char *end;
    *value = strtod(word, &end);
    return *word != '\0' && !isspace((unsigned char)*word) && *end == '\0';
}

/* The coordinates of a query, behind its option. */
static bool read_query(struct reading *r, enum query_kind kind, int floats)
{
    if (r->queried)
        return wrong("one query is enough", r->words[r->at]);
    if (r->count - r->at - 1 < floats)
        return wrong(kind == QUERY_SPOT ? "--spot takes two numbers, X Y" : "--window takes four numbers, X0 Y0 X1 Y1", NULL);
    for (int i = 0; i < floats; i++)
        if (!coordinate(r->words[r->at + 1 + i], &r->asked->query.at[i]))
            return wrong("not a number", r->words[r->at + 1 + i]);
    r->asked->query.kind = kind;
    r->queried = true;
    r->at += 1 + floats;
    return true;
}

/* The form that a shape is shown in. */
static bool read_form(struct reading *r, enum form form)
{
    if (r->formed)
        return wrong("one form is enough", r->words[r->at]);
    r->asked->form = form;
    r->formed = true;
    r->at++;
    return true;
}

/* A place: digits alone. A number that 64 bits do not hold is no shape's place; the greatest stands for it. */
static bool read_place(struct reading *r)
{
    const char *word = r->words[r->at];
    if (*word == '\0' || strspn(word, "0123456789") != strlen(word))
        return wrong("a place is a whole number, from 0 on", word);
    errno = 0;
    unsigned long long place = strtoull(word, NULL, 10);
    r->asked->place = errno == 0 ? place : UINT64_MAX;
    r->placed = true;
    r->at++;
    return true;
}

/* A word that is no option: the file, then the place. */
static bool read_plain(struct reading *r)
{
    const char *word = r->words[r->at];
    if (word[0] == '-' && word[1] != '\0')
        return wrong("this option is not known here", word);
    if (r->asked->file == NULL) {
        r->asked->file = word;
        r->at++;
        return true;
    }
    if ((r->takes & TAKES_PLACE) && !r->placed)
        return read_place(r);
    return wrong("one word too many", word);
}

/* The next word, with what belongs to it. */
static bool read_word(struct reading *r)
{
    const char *word = r->words[r->at];
    if ((r->takes & TAKES_QUERY) && strcmp(word, "--spot") == 0)
        return read_query(r, QUERY_SPOT, 2);
    if ((r->takes & TAKES_QUERY) && strcmp(word, "--window") == 0)
        return read_query(r, QUERY_WINDOW, 4);
    if ((r->takes & TAKES_PLACE) && strcmp(word, "--wkt") == 0)
        return read_form(r, FORM_WKT);
    if ((r->takes & TAKES_PLACE) && strcmp(word, "--geojson") == 0)
        return read_form(r, FORM_GEOJSON);
    return read_plain(r);
}

bool asked_read(struct asked *asked, int count, char **words, enum takes takes)
{
    struct reading r = {.asked = asked, .words = words, .count = count, .takes = takes};
    *asked = (struct asked){.form = FORM_PLAIN};
    while (r.at < count)
        if (!read_word(&r))
            return false;
    if (asked->file == NULL)
        return wrong("name a file, or - for standard input", NULL);
    if ((takes & TAKES_PLACE) && !r.placed)
        return wrong("name a place: 'boundary list FILE' shows them", NULL);
    return true;
}
