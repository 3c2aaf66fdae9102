/* refusal.h: what the library refuses, as sentences for people. */
#ifndef REFUSAL_H
#define REFUSAL_H

#include <stdint.h>
#include <stdio.h>

#include "source.h"
#include "status.h"

/* Prints a line on the refusal in an answer of the library about a file: its name, the number, where it is, what is
 * wrong, and what to do. Where a column of a page ends too early, the line names the vertex that lacks its bits; it is
 * looked up in the file's bytes. */
void refusal_print(FILE *out, const struct source *source, uint64_t word);

/* The status that a refusal ends with: a fault of the file is STATUS_REFUSED, one of the question STATUS_WRONG. */
enum status refusal_status(uint64_t word);

#endif
