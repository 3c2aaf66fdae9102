/* Whether ours, plain and tuned agree. */
#ifndef AGREE_H
#define AGREE_H

#include "sets.h"

/* Ends the run with a message and status 1 where the three differ on a column of the set, or on a damaged one: in answers, in bytes, in
 * values, or in what is left of the lent room. */
void agree(const struct set *set);

#endif
