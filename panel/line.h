/* The line, for the exam panel. Every function is proved: crates/line says what it returns and leaves.
   Link target/staticlib/libline.a (bash .ci/build).

   What no proof can see, and the caller owes at every call:
   - each pointer is good for the length given with it: not null, even for length 0, and so many bytes
     behind it belong to the caller, who may read them and, for the buffer that is written, write them;
   - buffers that are passed together do not overlap;
   - while a call has a state, nobody else has it: one thread at a time on a state. What else is passed nobody else
     writes meanwhile, and the output of line_write nobody else reads. */
#ifndef LINE_H
#define LINE_H

#include <stddef.h>
#include <stdint.h>

#include "answers.h"
#include "plan.h" /* PLAN_GREATEST_SIZE */

/* The size of a state, in bytes (docs/LAYOUT.md). */
#define LINE_STATE_SIZE 61440

/* A frame of version 1 is its length (2 bytes), 1, kind, node or belt number; a Feed adds a record of 8 bytes:
   piece (4), material 0 to 15, 0, mass (2), or a tick (request 2026-05), which is 0 but for its material, 255.
   A frame of version 2 has 2 for that 1 and is one byte longer: after the kind comes the console, 0 to 3. Version 1 is
   console 0.
   So a Feed is 13 bytes in version 1 and 14 in version 2, any other kind 5 and 6. */
#define LINE_LEAST_FRAME_SIZE 5
#define LINE_GREATEST_FRAME_SIZE 14

/* The kinds of frames: Send and Take name a belt, the others a node. */
enum {
    LINE_FEED = 1,
    LINE_SEND = 2,
    LINE_TAKE = 3,
    LINE_CRASH = 4,
    LINE_RECOVER = 5,
    LINE_TRIM = 6,  /* request 2026-04 */
    LINE_ASK = 7,   /* request 2026-07: what a Recover would restore is kept with the node that is down */
    LINE_COMMIT = 8 /* and applied */
};

#ifdef __cplusplus
extern "C" {
#endif

/* Load: checks a plan, of version 1 (document 01) or 2 (request 2026-02), and writes the line that it starts as into a
   state.
   Returns 0, or the first number of document 01, with request 2026-02, that applies: 1 to 7 for the plan, 8 for a state
   of another size.
   A refusal leaves the state as it was. The plan is only read. */
uint32_t line_load(const uint8_t *plan, size_t plan_length,
                   uint8_t *state, size_t state_length);

/* Step: works one frame on the line in a state.
   Returns 0, or the first number of document 01 and requests 2026-01 and 2026-04 to 2026-08 that applies, in this order:
   8 as line_check does, 9 to 11, 25 for a console above 3, 12 for a console whose own 1,000,000 steps are accepted, 13,
   26 for a Trim while a node is down or replays, 14 to 16, 27 for a Commit of a node that keeps no answer, 17 to 21, 24.
   Accepted, the state holds the line after the step; a refusal leaves it as it was. A Feed to an infeed
   with leaving belts, none of which takes the record, changes nothing but its console's count. The frame is only read. */
uint32_t line_step(uint8_t *state, size_t state_length,
                   const uint8_t *frame, size_t frame_length);

/* Check: returns 0 for a line's state, or 8 for a state of another size or a damaged one. A state that was kept from
   before request 2026-06 is damaged where a node has logged a record that a belt takes: its entries have no sets. */
uint32_t line_check(const uint8_t *state, size_t state_length);

/* Write: writes the plan of a state, the very bytes that were loaded, into an output.
   Returns 0, or 8 as line_check does, or 23 for an output shorter than the plan; PLAN_GREATEST_SIZE bytes are enough.
   Past the plan the output stays as it was; a refusal leaves all of it. The state is only read. */
uint32_t line_write(const uint8_t *state, size_t state_length,
                    uint8_t *plan, size_t plan_length);

#ifdef __cplusplus
}
#endif

#endif
