/* The column's calls, as each version offers them: ours (the proved code, through the crate `measure`), plain and tuned.
 *
 * Reading answers 0 or a refusal's number; writing answers the number of bytes, or 2^32 times a refusal's number. A slice is a pointer and
 * a length, in elements.
 */
#ifndef COLUMN_H
#define COLUMN_H

#include <stddef.h>
#include <stdint.h>

/* The most values that a column has, and the most bytes that it takes at any width. */
enum { MOST = 2048, MOST_BYTES = 9 + 16 * MOST };

/* The refusals of a column: room too small, too many values, width over 64, too few or too many bits, fill bits not zero. */
enum { ROOM = 2, MANY = 3, WIDTH = 8, BITS = 9, FILL = 10 };

#define REFUSED(number) ((uint64_t)(number) << 32)

typedef uint64_t read_call(const uint8_t *s, size_t len, size_t n, uint64_t *out, size_t room);
typedef uint64_t write_call(const uint64_t *vs, size_t n, uint8_t *out, size_t room);

/* Reads: measure_read and tuned_read leave the room as it was when they refuse; plain_read may have written on it. */
read_call measure_read, plain_read, tuned_read;

/* Decodings into a scratch, which a refusal may leave written on. */
read_call measure_decode, tuned_decode;

/* Writes: each leaves the room as it was when it refuses. */
write_call measure_write, plain_write, tuned_write;

/* One value a call, from a fresh position until an answer gives none: the sum of the values, wrapped at 64 bits. */
typedef uint64_t steps_call(const uint8_t *s, size_t len, size_t n);
steps_call measure_steps, plain_steps, tuned_steps;

#endif
