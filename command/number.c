/* number.c: a float as text that reads back to the same pattern. */
#include "number.h"

#include <stdio.h>
#include <stdlib.h>

#include "pattern.h"

int number_text(char room[NUMBER_ROOM], double value)
{
    int len = 0;
    for (int digits = 15; digits <= 17; digits++) {
        len = snprintf(room, NUMBER_ROOM, "%.*g", digits, value);
        if (pattern_of(strtod(room, NULL)) == pattern_of(value))
            break;
    }
    return len;
}
