/* What the rows make of an event, for the two judges that look events up. */

#ifndef LOOKUP_H
#define LOOKUP_H

#include <stdio.h>
#include <stdlib.h>
#include "rows.h"

/* What an event does: the states it is permitted from, those it leaves, its duty, and the states before from which that is told. */
struct effect {
    uint8_t from;
    uint8_t after;
    uint8_t duty;
    uint8_t duty_from;
};

/* Ends the program where the rows don't fit the tables. */
static inline void must(int holds, const char *what)
{
    if (holds)
        return;
    fprintf(stderr, "lookup: %s\n", what);
    exit(1);
}

/* Adds a row to what an event does that it permits; the rows leave the same states from each state before. */
static inline void add_row(struct effect *effect, const struct row *row, const struct event *event)
{
    must(effect->from == 0 || effect->after == row->states_after, "an event leaves different states");
    effect->from |= (uint8_t)ONLY(row->before);
    effect->after = row->states_after;
    effect->duty = (uint8_t)duty_of(event);
    effect->duty_from = (uint8_t)duty_from(effect->duty);
}

/* What an effect says of its event on a set, where these states after are allowed. */
static inline struct finding finding_by_effect(const struct effect *effect, unsigned set, unsigned allowed)
{
    unsigned after = set & effect->from ? effect->after & allowed : 0;
    return finding_of(set, after, effect->duty, effect->duty_from);
}

#endif
