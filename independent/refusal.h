/* Refusals, written from docs/refusals.md alone: a cause and a place, which is the index of the event at fault and the end. */

#ifndef REFUSAL_H
#define REFUSAL_H

#include <stdint.h>

/* The ends; NO_END is the end of a refusal that concerns no lawful one. */
enum { END_A = 0, END_B = 1, NO_END = 2 };

/* The causes that chip.h does not have. */
enum further_cause {
    LINE_TOO_LONG = 1,
    UNKNOWN_COMMAND = 2,
    BAD_FIELDS = 3,
    NO_SUCH_END = 4,
    TOO_MANY_EVENTS = 6,
    REPEATED_DSR = 7,
    CABLE_NOT_CLEAR = 8,
    NOT_OPEN = 9,
    CLOCK_LIMIT = 10
};

struct refusal {
    int cause; /* 0: the call was accepted, and index and end say nothing */
    uint32_t index;
    uint32_t end;
};

static inline struct refusal refused(int cause, uint32_t index, uint32_t end)
{
    struct refusal refusal = {cause, index, end};

    return refusal;
}

static inline struct refusal accepted(void)
{
    return refused(0, 0, NO_END);
}

#endif
