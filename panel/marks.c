/* Marks the columns on standard input, a replay table a line: `low high | row time fixed floor ; .. | column ..`, and
   what follows a further `|` is passed over. Prints for each a line: `yes`, `no` and the item's number, or the refusal.
   Fails at a line of another form. */
#include <ctype.h>
#include <stdio.h>

#include "marking.h"

/* The parts of a line that are read, the numbers of an item, and the most numbers of a part. */
enum { RANGE, ITEMS, COLUMNS, PARTS, FIELDS = 4, MOST = 4096 };
enum { ROW, TIME, FIXED, FLOOR };

static uint32_t range[2], items[FIELDS][MOST / FIELDS], columns[MOST];

/* How many numbers each part has. */
static size_t lengths[PARTS];

/* Where the next number of a part goes, or null if it has too many. */
static uint32_t *next_place(int part) {
    size_t at = lengths[part]++;
    if (at >= (part == RANGE ? 2 : MOST)) return NULL;
    if (part == ITEMS) return &items[at % FIELDS][at / FIELDS];
    return part == RANGE ? &range[at] : &columns[at];
}

/* Reads the number that begins with a digit, and in *next what follows it. Returns whether there is a place for it. */
static int read_number(int part, int *next) {
    uint32_t *place = next_place(part);
    uint64_t number = 0;
    for (; isdigit(*next) && number <= UINT32_MAX; *next = getchar()) number = number * 10 + (uint64_t)(*next - '0');
    if (place == NULL || number > UINT32_MAX) return 0;
    *place = (uint32_t)number;
    return 1;
}

/* Reads a line that begins with this character. Returns whether it has the form. */
static int read_line(int next) {
    int part = RANGE;
    for (int each = RANGE; each < PARTS; each++) lengths[each] = 0;
    while (next != '\n' && next != EOF) {
        if (part < PARTS && isdigit(next)) {
            if (!read_number(part, &next)) return 0;
            continue;
        }
        if (next == '|')
            part += part < PARTS;
        else if (next == ';' && part == ITEMS) {
            if (lengths[ITEMS] % FIELDS != 0) return 0;
        } else if (next != ' ' && part < PARTS)
            return 0;
        next = getchar();
    }
    return part >= COLUMNS && lengths[RANGE] == 2 && lengths[ITEMS] % FIELDS == 0;
}

int main(void) {
    for (int next = getchar(); next != EOF; next = getchar()) {
        if (!read_line(next)) return 1;
        size_t count = lengths[ITEMS] / FIELDS;
        uint32_t answer = marking_mark(range[0], range[1], items[ROW], count, items[TIME], count, items[FIXED], count,
                                       items[FLOOR], count, columns, lengths[COLUMNS]);
        if (answer == ANSWER_ACCEPTED)
            puts("yes");
        else if (answer >= MARKING_FIRST_NO)
            printf("no %u\n", (unsigned)(answer - MARKING_FIRST_NO));
        else
            printf("%u\n", (unsigned)answer);
    }
    return 0;
}
