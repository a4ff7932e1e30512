/* The numbers that Load, Step, Check, Write, Placing, the marker and the check of a plan return: document 01, "Numbers
   returned", and requests 2026-01 and 2026-04 to 2026-09. A call returns the first that applies, in rising order; but 25
   comes between 11 and 12, 26 between 13 and 14, and 27 between 16 and 17. */
#ifndef ANSWERS_H
#define ANSWERS_H

enum {
    ANSWER_ACCEPTED = 0,
    ANSWER_PLAN_LENGTH = 1,        /* plan under 5 bytes, or not its length field */
    ANSWER_PLAN_VERSION = 2,       /* plan version */
    ANSWER_PLAN_COUNTS = 3,        /* count of nodes or of belts */
    ANSWER_PLAN_SIZE = 4,          /* plan length that does not fit the counts */
    ANSWER_PLAN_RULE = 5,          /* rule */
    ANSWER_PLAN_BELT = 6,          /* belt fields or order */
    ANSWER_PLAN_DEGREE = 7,        /* over 4 belts in or out */
    ANSWER_STATE = 8,              /* state of another size, or (not for Load) damaged */
    ANSWER_FRAME_LENGTH = 9,       /* frame under 5 bytes, or not its length field */
    ANSWER_FRAME_VERSION = 10,     /* frame version */
    ANSWER_FRAME_KIND = 11,        /* kind, or length not the kind's */
    ANSWER_STEPS_USED_UP = 12,     /* the console's 1,000,000 steps are accepted */
    ANSWER_NO_SUCH_PLACE = 13,     /* no such node or belt */
    ANSWER_WRONG_PLACE = 14,       /* Feed not to an infeed; Crash, Recover, Ask or Commit of an infeed or outfeed */
    ANSWER_WRONG_STATUS = 15,      /* Crash of a down node; Send, Take with an end down; Recover, Ask, Commit of a node not down */
    ANSWER_CRASHED_NEIGHBOUR = 16, /* Crash of a node joined by a belt to one crashed earlier in the run */
    ANSWER_WRONG_RECORD = 17,      /* material over 15 and no tick, zero byte not 0 */
    ANSWER_NOTHING_THERE = 18,     /* nothing to send or take */
    ANSWER_BELT_FULL = 19,         /* belt holds 8 */
    ANSWER_ROW_COMPLETE = 20,      /* Take on a complete row while replaying */
    ANSWER_NO_SPACE = 21,          /* no space in the log or held list, or over 64 targets; not for a Feed
                                      of which an infeed with leaving belts sends nothing on (2026-08) */
    ANSWER_TABLE = 22,             /* replay table breaks the limits or the order */
    ANSWER_OUTPUT_SHORT = 23,      /* output shorter than needed */
    ANSWER_NO_PLACING = 24,        /* no placing exists; targets that conflict, or one not held */
    ANSWER_NO_SUCH_CONSOLE = 25,   /* console above 3 */
    ANSWER_NOT_ALL_UP = 26,        /* Trim while a node is down or replays */
    ANSWER_NOTHING_KEPT = 27,      /* Commit without a kept answer */
    ANSWER_LIST_LENGTH = 28        /* a list of columns whose length is not the table's */
};

#endif
