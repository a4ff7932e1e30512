/* A plan, of version 1 (document 01) or 2 (request 2026-02): its greatest size, and its check alone, which is proved:
   crates/plan says what it returns. Link target/staticlib/libplan.a (bash .ci/build).

   What no proof can see, and the caller owes: the pointer is good for the length given with it: not null, even for
   length 0, and so many bytes behind it belong to the caller, who may read them; while the call has them, nobody writes
   them. */
#ifndef PLAN_H
#define PLAN_H

#include <stddef.h>
#include <stdint.h>

#include "answers.h"

/* The size of the greatest plan that is accepted, in bytes: 12 nodes and 24 belts in version 2. */
#define PLAN_GREATEST_SIZE (5 + 4 * 12 + 10 * 24)

#ifdef __cplusplus
extern "C" {
#endif

/* Returns ANSWER_ACCEPTED, or the number, 1 to 7, for which Load would refuse the plan. The plan is only read. */
uint32_t plan_check(const uint8_t *plan, size_t plan_length);

#ifdef __cplusplus
}
#endif

#endif
