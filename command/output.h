/* output.h: the beginning and the end of what the command prints, and how it ends when it is disturbed. */
#ifndef OUTPUT_H
#define OUTPUT_H

#include "status.h"

/* Makes ready: a reader who closes the pipe ends the command quietly, and so does a file that shrinks, with a line. */
void output_begin(void);

/* Closes standard output. Gives the status back, or STATUS_WRONG, with a line, where something could not be written. */
enum status output_end(enum status status);

#endif
