/* The marker of columns that a candidate proposes for a replay table (request 2026-09). It is proved: crates/marking
   says what it returns. Link target/staticlib/libmarking.a (bash .ci/build).

   What no proof can see, and the caller owes at every call:
   - each pointer is good for the length given with it, which counts numbers and not bytes: not null, even for length 0,
     aligned as its type is, and so many behind it belong to the caller, who may read them;
   - while the call has the buffers, nobody writes them. */
#ifndef MARKING_H
#define MARKING_H

#include <stddef.h>
#include <stdint.h>

#include "answers.h"

/* A no is no refusal: it is this and the number, from 0, of the item that it names. */
#define MARKING_FIRST_NO 256

#ifdef __cplusplus
extern "C" {
#endif

/* Marks columns[i] as the column of item i of a table: rows[i], times[i], fixed[i], floors[i], as for placing_place
   (placing.h). Any numbers may be columns.
   Returns ANSWER_ACCEPTED, a yes, if the columns keep the placing rules, whoever proposed them; or ANSWER_TABLE, or
   ANSWER_LIST_LENGTH for more or fewer columns than items, the first that applies; or, a no, MARKING_FIRST_NO + i for
   the first item i that breaks a rule by itself or with an earlier item.
   Everything is only read. */
uint32_t marking_mark(uint32_t low, uint32_t high,
                      const uint32_t *rows, size_t rows_length,
                      const uint32_t *times, size_t times_length,
                      const uint32_t *fixed, size_t fixed_length,
                      const uint32_t *floors, size_t floors_length,
                      const uint32_t *columns, size_t columns_length);

#ifdef __cplusplus
}
#endif

#endif
