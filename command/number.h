/* number.h: a float as text that reads back to the same pattern. */
#ifndef NUMBER_H
#define NUMBER_H

enum { NUMBER_ROOM = 32 };

/* Puts the shortest of 15, 16 and 17 digits that reads back to the same pattern. The value is finite. Gives the number of characters. */
int number_text(char room[NUMBER_ROOM], double value);

#endif
