/* progress.h: a line on standard error while many files are checked, where that is a terminal. */
#ifndef PROGRESS_H
#define PROGRESS_H

/* Says which file of how many is at work. */
void progress_show(int done, int of, const char *name);

/* Takes the line away again. */
void progress_clear(int of);

#endif
