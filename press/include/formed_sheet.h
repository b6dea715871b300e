/* check and run of librun.a: they test and run a frame of a formed sheet where it lies in memory.
 *
 * The frame, its records and every refusal are described in docs/FORMAT.md. Both functions return for every
 * content and every length, keep no state, allocate nothing and may be called from any number of threads, each
 * on a frame of its own. As measured, check takes 17 KB of stack and run 66 KB, whatever the frame.
 * Link with: cc program.c librun.a -lm
 */

#ifndef FORMED_SHEET_H
#define FORMED_SHEET_H

#include <stddef.h>
#include <stdint.h>

#ifdef __cplusplus
extern "C" {
#endif

/* Why a frame is refused. The place is a byte offset in the frame. */
enum formed_sheet_number {
    FORMED_SHEET_ACCEPTED = 0,       /* place 0 */
    FORMED_SHEET_NOT_WHOLE = 1,      /* at the record: fewer than 6 bytes remain, or the record is not whole */
    FORMED_SHEET_NOT_DUE = 2,        /* at the record: its kind or its length is not one due here */
    FORMED_SHEET_COUNT = 3,          /* at the field: points or rows above 4096, resweeps above 64, scalar count above 4 */
    FORMED_SHEET_CODE = 4,           /* at the field: a code outside its values */
    FORMED_SHEET_NOT_FINITE = 5,     /* at the float: not finite; an impulse bound may be infinite, but no NaN */
    FORMED_SHEET_BOUND_OR_CAP = 6,   /* at the lower bound: above the upper; at the cap: below 0 */
    FORMED_SHEET_COLOUR = 7,         /* at the colour: less than the previous row's */
    FORMED_SHEET_EXTRA_BYTES = 8,    /* at the first byte after the last record */
    FORMED_SHEET_CLASH = 9           /* at the later row: two rows of one colour, not 65535, name one point in range */
};

struct formed_sheet_answer {
    uint32_t number; /* one of the above */
    uint64_t place;
};

/* Tests a frame of `length` bytes. `frame` must be good for reading that many; it may not be null, not even where
 * the length is 0. Nothing is written. */
struct formed_sheet_answer check(const uint8_t *frame, size_t length);

/* Tests a frame as check does, with the same number and place, and runs it if it is accepted: the main sweep and
 * the resweeps, whose results take the place of the frame's velocities and of the assigned fields of its rows.
 * A refused frame stays as it is, to the last byte. `frame` must be good for reading and writing `length` bytes;
 * it may not be null, and nothing else may read or write these bytes during the call. */
struct formed_sheet_answer run(uint8_t *frame, size_t length);

#ifdef __cplusplus
}
#endif

#endif
