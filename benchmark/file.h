/* The boundary file's calls, as each version offers them: ours (`boundary_`, from an object of its own) and plain.
 *
 * An answer has in its low 32 bits the number of shapes or of hits, or the page of a refusal, and in bits 32 to 39 the refusal's number, 0
 * where there is none. Ours has above them the column and the index of a refusal, which the plain version does not find. A slice is a
 * pointer and a length in bytes.
 */
#ifndef FILE_H
#define FILE_H

#include "column.h"

/* The most shapes of a page, and the most pages of a file. */
enum { MOST_SHAPES = 256, MOST_PAGES = 1024 };

/* The refusals that are not a column's; MANY is also that of a 1,025th page. */
enum {
    BAD_QUERY = 1,
    LENGTH = 4,
    KIND = 5,
    COUNTS = 6,
    BOX_FORM = 7,
    PARTS = 11,
    NOT_FINITE = 12,
    NOT_CLOSED = 13,
    OFF_GRID = 14,
    TURN = 15,
    BOX_VALUE = 16
};

/* An answer of a refusal's number and a page, or of 0 and a count. */
#define ANSWER(number, count) (REFUSED(number) | (uint64_t)(count))
#define NUMBER_OF(answer) ((unsigned)((answer) >> 32 & 255))
#define COUNT_OF(answer) ((uint32_t)(answer))
/* Both of an answer, without the column and the index. */
#define BOTH_OF(answer) ANSWER(NUMBER_OF(answer), COUNT_OF(answer))

typedef uint64_t check_call(const uint8_t *file, size_t len);
typedef uint64_t count_call(const uint8_t *query, size_t query_len, const uint8_t *file, size_t len);

/* The full check, and the search that only counts its hits; the query is exactly its block of kind 4. */
check_call plain_check, boundary_check;
count_call plain_count, boundary_count;

/* How many pages the plain versions have opened so far. */
extern size_t plain_opened;

#endif
