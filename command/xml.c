/* xml.c: text from outside in an XML document. */
#include "xml.h"

#include <stdint.h>
#include <stdio.h>

/* How many bytes the UTF-8 character at a place has, by its first byte; 0 where none begins so. */
static int expected(unsigned char first)
{
    if (first < 0x80)
        return 1;
    if (first >= 0xC2 && first < 0xE0)
        return 2;
    if (first >= 0xE0 && first < 0xF0)
        return 3;
    return first >= 0xF0 && first < 0xF5 ? 4 : 0;
}

/* Whether XML has a character of this number, and UTF-8 one of so many bytes. */
static int allowed(uint32_t number, int len)
{
    static const uint32_t least[5] = {0, 0, 0x80, 0x800, 0x10000};
    if (number < least[len] || number > 0x10FFFF || (number >= 0xD800 && number < 0xE000))
        return 0;
    return number >= 0x20 && number != 0x7F && number != 0xFFFE && number != 0xFFFF;
}

/* How many bytes the character at a place has; 0 where there is none that may stand in XML. */
static int character(const char *text)
{
    int len = expected((unsigned char)text[0]);
    uint32_t number = (unsigned char)text[0] & (len == 1 ? 0x7FU : 0xFFU >> (len + 1));
    for (int i = 1; i < len; i++) {
        unsigned char byte = (unsigned char)text[i];
        if ((byte & 0xC0) != 0x80)
            return 0;
        number = number << 6 | (byte & 0x3FU);
    }
    return len > 0 && allowed(number, len) ? len : 0;
}

void xml_print(const char *text)
{
    while (*text != '\0') {
        int len = character(text);
        switch (len == 0 ? '?' : *text) {
        case '&':
            fputs("&amp;", stdout);
            break;
        case '<':
            fputs("&lt;", stdout);
            break;
        case '>':
            fputs("&gt;", stdout);
            break;
        case '"':
            fputs("&quot;", stdout);
            break;
        default:
            if (len == 0)
                putchar('?');
            else
                fwrite(text, 1, (size_t)len, stdout);
        }
        text += len == 0 ? 1 : len;
    }
}
