/* Plays the sheet on standard input, a plan and then frames, and prints its lines A.
   Fails where the state is damaged at the end or does not give back the plan. */
#include <stdio.h>
#include <string.h>

#include "line.h"

/* A length field has two bytes. */
enum { FIELD_SIZE = 2, GREATEST_LENGTH = 65535 };

static uint8_t plan[GREATEST_LENGTH], frame[GREATEST_LENGTH], written[PLAN_GREATEST_SIZE], state[LINE_STATE_SIZE];

/* Reads a plan or frame: its length field, and as many bytes as that says, or all there are.
   Returns how many bytes there were, and in *is_whole whether they are as many as the field says. */
static size_t read_part(uint8_t *part, int *is_whole) {
    size_t length = fread(part, 1, FIELD_SIZE, stdin);
    size_t said = length < FIELD_SIZE ? FIELD_SIZE : (size_t)part[0] << 8 | part[1];
    if (said > length) length += fread(part + length, 1, said - length, stdin);
    *is_whole = length == said;
    return length;
}

int main(void) {
    int is_whole;
    size_t plan_length = read_part(plan, &is_whole), frame_length;
    uint32_t answer = line_load(plan, plan_length, state, sizeof state);
    if (answer != ANSWER_ACCEPTED) {
        printf("A 0 %u\n", (unsigned)answer);
        return 0;
    }
    is_whole = 1;
    for (unsigned number = 1; is_whole && (frame_length = read_part(frame, &is_whole)) > 0; number++) {
        answer = line_step(state, sizeof state, frame, frame_length);
        printf("A %u %u\n", number, (unsigned)answer);
        is_whole = is_whole && frame_length >= LINE_LEAST_FRAME_SIZE;
    }
    if (line_check(state, sizeof state) != ANSWER_ACCEPTED ||
        line_write(state, sizeof state, written, sizeof written) != ANSWER_ACCEPTED)
        return 1;
    return memcmp(plan, written, plan_length) != 0;
}
