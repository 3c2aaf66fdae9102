/* boundary.h: the C face of the boundary file. C11 and C++17, on 64-bit machines. docs/FORMAT.md says what each byte of a file is.
 *
 * Memory. All memory is the caller's, lent for the call; nothing is kept of it and none is allocated. A slice is a pointer with its number of
 * elements (not of bytes). The pointer is not null and aligned for its element, also where there are no elements; any such pointer will then do. A
 * slice that a call writes to overlaps no other slice of that call; slices that are only read may overlap or be the same. `const` slices are only
 * read; of the others the comment over the call says what is written, and every other element stays as it was.
 *
 * Every call takes any input and returns: the numbers, bytes and words that are lent may be anything, and are judged in the order of the format's
 * description. Only the pointers and lengths must be true. Nothing is printed, no errno is set, and no signal is raised.
 *
 * Floating point. No answer depends on the floating-point mode of the caller: a program may round as it likes, take subnormals for zero or flush them
 * (as one linked with -ffast-math does), and unmask any exception. No call reckons with floats or compares them, but for one cast to a whole number,
 * which is exact where it is made. So the mode and the flags are after a call what they were before it, and no SIGFPE comes from within.
 *
 * Threads. There is no global state. Threads may call at the same time, as long as none writes to what another lends meanwhile.
 *
 * Stack. As measured on x86-64 by tests/cface/stack.c (measured on some inputs, not proved): the search takes about 70 KiB of its thread's stack, the
 * fetch about 40 KiB, the full check and the count about 38 KiB, the column read about 17 KiB, each other call less than 2 KiB. BOUNDARY_STACK is more
 * than the greatest of these.
 *
 * The answer of every call is one word. Bits 32 to 39 are the number of a refusal, 0 if there is none. Then bits 0 to 31 are what the call says, and
 * all others are 0. Else bits 0 to 31 are the page, from 0, that the refusal concerns, and 0 if it concerns none; bits 40 and 41 the column of that
 * page, 0 for none; and bits 42 to 53 the index, from 0, of the value of a column at which it was refused. Column and index say something where the
 * number is 8, 9 or 10, and are 0 elsewhere; bits 54 to 63 are 0. A refused call has changed no byte of what was lent to it.
 *
 * A program that was compiled with a header that says "bits 40 to 63 are 0" takes 8, 9 and 10 for numbers that do not exist: compile it again. */
#ifndef BOUNDARY_H
#define BOUNDARY_H

#include <stddef.h>
#include <stdint.h>

#ifdef __cplusplus
extern "C" {
#endif

/* ---- An answer taken apart. Each argument is a uint64_t, and is used once. */

/* The refusal's number, an enum boundary_refusal, or 0. */
#define BOUNDARY_NUMBER(word) ((uint32_t)((word) >> 32 & 0xFF))
/* What the call says, where it is not refused. */
#define BOUNDARY_SAYS(word) ((uint32_t)((word) & UINT32_C(0xFFFFFFFF)))
/* The page that the refusal concerns, where it is refused: for a fault in the frame of a file the number of page blocks passed before it, for one in
 * a page's contents that page, else 0. */
#define BOUNDARY_PAGE(word) ((uint32_t)((word) & UINT32_C(0xFFFFFFFF)))
/* The column of that page which is refused by 8, 9 or 10, an enum boundary_column; for any other number, and where a call reads one column alone, 0. */
#define BOUNDARY_COLUMN(word) ((uint32_t)((word) >> 40 & 3))
/* The value of the column, from 0, at which it was refused. By 8: 0. By 9 where bits are lacking: the first value whose bits are not all there, so 0
 * where the width or the first pattern is missing or cut. By 9 for bytes left over, and by 10: the number of values that the column is to hold. For any
 * other number 0. */
#define BOUNDARY_INDEX(word) ((uint32_t)((word) >> 42 & 0xFFF))

/* The columns of a page. */
enum boundary_column {
    BOUNDARY_COLUMN_NONE = 0,
    BOUNDARY_COLUMN_X = 1,
    BOUNDARY_COLUMN_Y = 2
};

/* Why a call was refused. These calls give each number exactly when its line holds. */
enum boundary_refusal {
    BOUNDARY_REFUSED_QUERY = 1,    /* the query is not finite, reversed, or its block is malformed */
    BOUNDARY_REFUSED_ROOM = 2,     /* the lent room is smaller than the answer needs */
    BOUNDARY_REFUSED_MANY = 3,     /* a column call over 2,048 values (in a page this is 6); a 1,025th page; a writer's state with over 1,024 pages or
                                      over 262,144 shapes */
    BOUNDARY_REFUSED_LENGTHS = 4,  /* a length in the file does not fit, or bytes follow the end */
    BOUNDARY_REFUSED_KIND = 5,     /* wrong kind or edition */
    BOUNDARY_REFUSED_COUNTS = 6,   /* a page's shapes, vertices or parts out of limits, slices of unequal length, or the counts at the end of the
                                      file are wrong */
    BOUNDARY_REFUSED_BOX_FORM = 7, /* a page box is not finite or reversed, or not all zero bytes where the page has no vertex */
    BOUNDARY_REFUSED_WIDTH = 8,    /* a column's width is over 64 */
    BOUNDARY_REFUSED_BITS = 9,     /* a column has too few bits, or a whole byte too many */
    BOUNDARY_REFUSED_FILL = 10,    /* the fill bits of a column's last byte are not zero */
    BOUNDARY_REFUSED_PARTS = 11,   /* a type over 6, or part counts and lengths against the table of types or the sums */
    BOUNDARY_REFUSED_FINITE = 12,  /* a coordinate is not finite */
    BOUNDARY_REFUSED_RING = 13,    /* a ring is not closed */
    BOUNDARY_REFUSED_GRID = 14,    /* a MultiPolygon is off grid */
    BOUNDARY_REFUSED_TURN = 15,    /* a MultiPolygon's ring turns zero, or its first ring is not clockwise */
    BOUNDARY_REFUSED_BOX = 16,     /* a page box differs in value from the box of its vertices */
    BOUNDARY_REFUSED_PLACE = 17,   /* there is no shape at that place */
    BOUNDARY_REFUSED_CLOSED = 18   /* the writer is already closed */
};

/* ---- Limits, and rooms that are always enough. */

#define BOUNDARY_MOST_VALUES 2048       /* of a column, and vertices of a page */
#define BOUNDARY_MOST_PAGE_SHAPES 256   /* of a page */
#define BOUNDARY_MOST_PAGES 1024        /* of a file */
#define BOUNDARY_MOST_SHAPES 262144     /* of a file: so many places hold every search */
#define BOUNDARY_WORDS 4                /* of a position, of a writer's state, and about a shape */
#define BOUNDARY_QUERY_ROOM 38          /* bytes of the longest query block */
#define BOUNDARY_COLUMN_ROOM(n) (1 + 8 * (size_t)(n)) /* bytes of a column of n values, at most */
/* bytes of a page block of so many shapes, parts and vertices, at most; and of what open and close add */
#define BOUNDARY_PAGE_ROOM(shapes, parts, vertices) (54 + 7 * (size_t)(shapes) + 2 * (size_t)(parts) + 16 * (size_t)(vertices))
#define BOUNDARY_OPEN_ROOM 8
#define BOUNDARY_CLOSE_ROOM 14
#define BOUNDARY_STACK 98304            /* bytes of stack to have free for a call */

/* ---- Files. */

/* The full check of a file: its frame, then each page's contents. Says the number of its shapes. */
uint64_t boundary_check(const uint8_t *file, size_t len);

/* A query is a block: the length of its body (4 bytes, lowest first), the kind 4 (2 bytes, likewise), and the body. An empty body asks for
 * everything, 16 bytes for a spot (x, y), 32 for a window (least x, least y, greatest x, greatest y), each a 64-bit float, lowest byte first. It is
 * lent exactly: no byte behind it. */

/* The count-only search. Says the number of hits. Order: 1, the frame, the contents of each page whose box meets the query. */
uint64_t boundary_count(const uint8_t *query, size_t query_len, const uint8_t *file, size_t len);

/* The search. Fills the start of `places` with the places of the hits, ascending: a place is a shape's position in the file, from 0. Says their
 * number. Order: as the count, then 2. */
uint64_t boundary_search(const uint8_t *query, size_t query_len, const uint8_t *file, size_t len, uint32_t *places, size_t room);

/* The shape at a place. Fills the start of the four rooms: `about` with four words (register, type, number of parts, number of vertices), `lens` with
 * the part lengths, `xs` and `ys` with the patterns of the vertices. Says the number of vertices. Order: frame, 17, contents of its page, 2 (any room
 * too small, `about` with fewer than four words too). */
uint64_t boundary_fetch(const uint8_t *file, size_t len, uint64_t place, uint64_t *about, size_t about_room, uint16_t *lens, size_t lens_room,
                        uint64_t *xs, size_t xs_room, uint64_t *ys, size_t ys_room);

/* ---- Columns. A pattern is the 64 bits of a float (a double copied to a uint64_t), and any 64 bits are taken. */

/* Writes the column of n patterns to the start of `room`, in the fewest bytes that any width takes. Says the number of bytes. Order: 3, 2. */
uint64_t boundary_column_write(const uint64_t *values, size_t n, uint8_t *room, size_t room_len);

/* Reads a column of n patterns to the start of `room`. The column has `len` bytes, no more and no fewer. Says n. Order: 3, 2, 8, 9, 10. */
uint64_t boundary_column_read(const uint8_t *column, size_t len, size_t n, uint64_t *room, size_t room_len);

/* One value of a column of n patterns. `position` is four words: bit place, values given, width, last value; a fresh one is all zero. With a value
 * given, the four words are the next position, whose last value is the value, and the call says 1; at the end it says 0 and the position stays. Fewer
 * than four words: 2, before all else; words behind the fourth stay. Any position is taken as it stands, so a caller may keep one, copy it, and go on
 * from it. Order: 3, 8, 9, 10. From a fresh position the last answer has the index that the read of the column has. From any other the index is 0 with
 * 8, the number of values given where bits are lacking for the next one, the lesser of that number and n where the place lies past the bytes, and n
 * with bytes left over and with 10. */
uint64_t boundary_column_step(const uint8_t *column, size_t len, size_t n, uint64_t *position, size_t position_len);

/* ---- The writer. Its state is four words in `writer`: position in the buffer, pages, shapes, closed (0, or anything else for closed). Each call
 * says 0, puts its bytes in the buffer at the position, and leaves the next state in `writer`; a refused call leaves state and buffer as they were,
 * and may be made again with other shapes or a longer buffer that begins with the same bytes. Fewer than four words: 2, before all else; words behind
 * the fourth stay. Any state is taken as it stands. Once closed, the position is the length of the file. */

/* Begins a file at the buffer's start. Uses nothing of the state that comes in. Order: 2. */
uint64_t boundary_open(uint64_t *writer, size_t writer_len, uint8_t *buffer, size_t len);

/* Adds a page: register number, type and part count of each shape, the length of each part, and the patterns of all vertices, part by part.
 * Registers, types and counts are as many as the shapes, lens as the parts, xs and ys as the vertices. Types: 0 empty, 1 Point, 2 LineString, 3
 * Polygon, 4 MultiPoint, 5 MultiLineString, 6 MultiPolygon. Order: 18, 3, 6, 11, 12, 13, 14, 15, 2. */
uint64_t boundary_page(uint64_t *writer, size_t writer_len, uint8_t *buffer, size_t len, const uint32_t *registers, size_t registers_len,
                       const uint8_t *types, size_t types_len, const uint16_t *counts, size_t counts_len, const uint16_t *lens, size_t lens_len,
                       const uint64_t *xs, size_t xs_len, const uint64_t *ys, size_t ys_len);

/* Ends the file. Order: 18, 3, 2. */
uint64_t boundary_close(uint64_t *writer, size_t writer_len, uint8_t *buffer, size_t len);

#ifdef __cplusplus
}
#endif
#endif
