/* The placing of a replay table (document 01, "Placing"), which may be called alone. Both functions are proved:
   crates/placing and crates/placing_items say what they return and leave.
   Link target/staticlib/libplacing.a for the one, libplacing_items.a for the other (bash .ci/build).

   What no proof can see, and the caller owes at every call:
   - each pointer is good for the length given with it, which counts numbers or items and not bytes: not null, even for
     length 0, aligned as its type is, and so many behind it belong to the caller, who may read them and, for the
     columns, write them;
   - the columns do not overlap what is passed with them;
   - while a call has the buffers, nobody else writes them, and nobody reads the columns. */
#ifndef PLACING_H
#define PLACING_H

#include <stddef.h>
#include <stdint.h>

#include "answers.h"

/* A table has at most so many items, and this is the greatest column, row time and floor (request 2026-01). */
#define PLACING_MOST_ITEMS 64
#define PLACING_GREATEST 4000000

/* Row 0 to 3; a row time from 1 on, strictly rising along the row; a fixed column, or 0 for a free item; a floor, which
   is 0 for a fixed item. Items stand by row, then by row time. */
struct placing_item {
    uint32_t row, time, fixed, floor;
};

#ifdef __cplusplus
extern "C" {
#endif

/* Places the items of a table, whose columns run from low + 1 to high. Item i is rows[i], times[i], fixed[i],
   floors[i]; slices of unequal length hold no table.
   Returns ANSWER_ACCEPTED, and has written the chosen column of each item, in the table's order; or ANSWER_TABLE,
   ANSWER_OUTPUT_SHORT for fewer columns than items, or ANSWER_NO_PLACING, the first that applies.
   Past the last item the columns stay as they were; a refusal leaves all of them. The rest is only read. */
uint32_t placing_place(uint32_t low, uint32_t high,
                       const uint32_t *rows, size_t rows_length,
                       const uint32_t *times, size_t times_length,
                       const uint32_t *fixed, size_t fixed_length,
                       const uint32_t *floors, size_t floors_length,
                       uint32_t *columns, size_t columns_length);

/* The same for a table of items. */
uint32_t placing_place_items(uint32_t low, uint32_t high,
                             const struct placing_item *items, size_t items_length,
                             uint32_t *columns, size_t columns_length);

#ifdef __cplusplus
}
#endif

#endif
