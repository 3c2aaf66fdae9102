/* sheet.c: what stands around a map: paper, frame, title, key, scale; and the query drawn on it. */
#include "sheet.h"

#include <inttypes.h>
#include <math.h>
#include <stdio.h>
#include <string.h>

#include "number.h"
#include "palette.h"
#include "xml.h"

/* From the frame's foot up to a line of text in it, in pixels. */
#define PAD_TEXT 14

/* The name of a file without its folders. */
static const char *base(const char *name)
{
    const char *slash = strrchr(name, '/');
    return slash != NULL && slash[1] != '\0' ? slash + 1 : name;
}

/* Prints what was asked, in words. */
static void print_query(const struct query *query)
{
    char text[4][NUMBER_ROOM] = {"", "", "", ""};
    for (int i = 0; i < 4; i++)
        number_text(text[i], query->at[i]);
    if (query->kind == QUERY_SPOT)
        printf("spot (%s, %s)", text[0], text[1]);
    else if (query->kind == QUERY_WINDOW)
        printf("window from (%s, %s) to (%s, %s)", text[0], text[1], text[2], text[3]);
    else
        printf("everything");
}

/* Prints the head of the document, with its title for readers that show no picture. */
static void print_head(const struct picture *p, const struct sheet *sheet)
{
    char x[NUMBER_ROOM], y[NUMBER_ROOM];
    puts("<?xml version=\"1.0\" encoding=\"UTF-8\"?>");
    printf("<svg xmlns=\"http://www.w3.org/2000/svg\" width=\"%.0f\" height=\"%.0f\" viewBox=\"0 0 %.0f %.0f\">\n<title>", p->sheet_width, p->sheet_height,
           p->sheet_width, p->sheet_height);
    xml_print(base(sheet->name));
    printf(": hits %" PRIu32 " of %" PRIu32 "</title>\n", sheet->hits, sheet->shapes);
    number_text(x, p->origin_x);
    number_text(y, p->origin_y);
    printf("<desc>Asked for: ");
    print_query(sheet->query);
    printf(". The outlines are in steps of %g of the file's units from (%s, %s), y upwards, and rounded to them.</desc>\n", p->step, x, y);
}

/* Prints the visible title: the hits, and under them the file and the query. */
static void print_title(const struct picture *p, const struct sheet *sheet)
{
    printf("<text x=\"%.1f\" y=\"%.1f\" " SERIF " font-size=\"26\" fill=\"" TITLE_TEXT "\">hits %" PRIu32 " of %" PRIu32 "</text>\n", p->left, p->top - 38,
           sheet->hits, sheet->shapes);
    printf("<text x=\"%.1f\" y=\"%.1f\" " SANS " font-size=\"13\" fill=\"" QUIET_TEXT "\">", p->left, p->top - 14);
    xml_print(base(sheet->name));
    fputs(", ", stdout);
    print_query(sheet->query);
    if (p->query_beyond)
        fputs(sheet->query->kind == QUERY_SPOT ? ", which lies outside of this picture" : ", which reaches beyond this picture", stdout);
    puts("</text>");
}

void sheet_open(const struct picture *p, const struct sheet *sheet)
{
    print_head(p, sheet);
    puts("<style>.line{fill:none}.others .line{stroke:" OTHER_TEXT "}.others .dots{fill:" OTHER_LINE ";stroke:" PAPER "}.hits .dots{fill:" HIT_LINE ";stroke:" PAPER "}</style>");
    printf("<clipPath id=\"frame\"><rect x=\"%.1f\" y=\"%.1f\" width=\"%.1f\" height=\"%.1f\" rx=\"4\"/></clipPath>\n", p->left, p->top, p->width, p->height);
    printf("<rect width=\"100%%\" height=\"100%%\" fill=\"" PAPER "\"/>\n");
    printf("<rect x=\"%.1f\" y=\"%.1f\" width=\"%.1f\" height=\"%.1f\" rx=\"4\" fill=\"" GROUND "\" stroke=\"" FRAME_LINE "\"/>\n", p->left, p->top, p->width,
           p->height);
    print_title(p, sheet);
    if (sheet->blank)
        printf("<text x=\"%.1f\" y=\"%.1f\" " SANS " font-size=\"13\" fill=\"" QUIET_TEXT "\" text-anchor=\"middle\">no shape here has a vertex to draw</text>\n",
               p->left + p->width / 2, p->top + p->height - PAD_TEXT);
}

/* Draws a spot: a cross in a ring, on a pale ground so that it stands out. */
static void draw_spot(double x, double y)
{
    static const char *const coats[2] = {"stroke=\"" PAPER "\" stroke-width=\"5\" stroke-opacity=\"0.85\"", "stroke=\"" QUERY_LINE "\" stroke-width=\"1.8\""};
    for (int i = 0; i < 2; i++)
        printf("<path d=\"M%.2f %.2fm-13 0h26m-13-13v26m-6.5-13a6.5 6.5 0 1 0 13 0a6.5 6.5 0 1 0-13 0\" fill=\"none\" stroke-linecap=\"round\" %s/>\n", x, y, coats[i]);
}

/* Draws a window. */
static void draw_window(double left, double top, double right, double bottom)
{
    printf("<rect x=\"%.2f\" y=\"%.2f\" width=\"%.2f\" height=\"%.2f\" fill=\"" QUERY_LINE "\" fill-opacity=\"0.05\" stroke=\"" QUERY_LINE
           "\" stroke-width=\"1.8\" stroke-dasharray=\"7 5\"/>\n",
           left, top, right - left, bottom - top);
}

void sheet_query(const struct picture *p, const struct query *query)
{
    const double *at = query->at;
    if (query->kind == QUERY_EVERYTHING)
        return;
    puts("<g id=\"query\" clip-path=\"url(#frame)\">");
    if (query->kind == QUERY_SPOT)
        draw_spot(picture_x(p, at[0]), picture_y(p, at[1]));
    else
        draw_window(picture_x(p, at[0]), picture_y(p, at[3]), picture_x(p, at[2]), picture_y(p, at[1]));
    puts("</g>");
}

/* Draws a bar of 1, 2 or 5 times a power of ten of file units, at most a quarter of the map long. A map that is a spot has no scale. */
static void draw_scale(const struct picture *p)
{
    static const double firsts[3] = {5, 2, 1};
    double most = p->width / 4 / p->scale, ten = pow(10, floor(log10(most))), bar = ten;
    char text[NUMBER_ROOM];
    for (int i = 2; i >= 0; i--)
        bar = firsts[i] * ten <= most ? firsts[i] * ten : bar;
    double y = p->top + p->height + 18, right = p->left + bar * p->scale;
    if (p->scale == 1 || !isfinite(bar * p->step))
        return;
    snprintf(text, sizeof text, "%.15g", bar * p->step);
    printf("<path d=\"M%.1f %.1fv6H%.1fv-6\" fill=\"none\" stroke=\"" QUIET_TEXT "\"/>\n", p->left, y - 6, right);
    printf("<text x=\"%.1f\" y=\"%.1f\" " SANS " font-size=\"12\" fill=\"" QUIET_TEXT "\">%s file units</text>\n", right + 8, y, text);
}

/* Draws one colour of the key, and what it means, from a place on. */
static void draw_colour(double x, double y, const char *fill, const char *line, const char *meaning)
{
    printf("<rect x=\"%.1f\" y=\"%.1f\" width=\"16\" height=\"11\" fill=\"%s\" stroke=\"%s\"/>", x, y - 10, fill, line);
    printf("<text x=\"%.1f\" y=\"%.1f\">%s</text>\n", x + 22, y, meaning);
}

/* Draws the key of the two colours, at the right. */
static void draw_key(const struct picture *p)
{
    double y = p->top + p->height + 18, right = p->left + p->width;
    puts("<g " SANS " font-size=\"12\" fill=\"" QUIET_TEXT "\">");
    draw_colour(right - 266, y, HIT_FILL, HIT_LINE, "hit: its box meets the query");
    draw_colour(right - 66, y, OTHER_FILL, OTHER_LINE, "not hit");
    puts("</g>");
}

void sheet_close(const struct picture *p, const struct sheet *sheet)
{
    draw_scale(p);
    if (sheet->query->kind != QUERY_EVERYTHING)
        draw_key(p);
    puts("</svg>");
}
