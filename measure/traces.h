/* What the check and the measurement of whole traces share: the judges, and traces that are drawn. */

#ifndef TRACES_H
#define TRACES_H

#include <string.h>
#include "draws.h"
#include "judges.h"
#include "wire.h"

/* A judge and its name. */
struct judge {
    const char *name;
    judge_of_traces *judge;
};

/* How many judges are compared. */
#define JUDGES 3

/* How many are measured: the judges, what does nothing, to measure what stands around a call, and what hands events in alone. */
#define MEASURED (JUDGES + 2)

/* The judges, the proved one first, and then the other two. */
extern const struct judge judges[MEASURED];

/* How many events and pairs a measured trace has. */
struct size {
    size_t n;
    size_t pairs;
};

/* How many traces are measured. */
#define SIZES 8

/* The sizes of the measured traces. */
extern const struct size sizes[SIZES];

/* The seed that the measured traces are drawn from. */
#define SEED 1

/* A trace whose lengths fit, with the sets that its pairs start from. */
struct trace {
    size_t n;
    size_t pairs;
    uint8_t events[MOST_EVENTS * EVENT_BYTES];
    uint16_t numbers[MOST_EVENTS];
    uint8_t start[MOST_PAIRS];
};

/* Writes a drawn event as its bytes. */
static inline void put_event(uint8_t *bytes, const struct drawn *drawn)
{
    const struct event *event = &drawn->event;
    bytes[REQUEST_AT] = request_codes[drawn->request];
    bytes[RET_TO_SRC_AT] = event->ret_to_src;
    bytes[DO_NOT_GO_TO_SD_AT] = event->do_not_go_to_sd;
    bytes[EXCL_AT] = (uint8_t)drawn->excl;
    bytes[TAG_AT] = event->tag;
    put_answer(bytes + CHANNEL_AT, event, drawn->state_after);
}

/* Draws a trace of mostly explained events, its pairs starting from any of the seven states. */
static inline void make_trace(struct trace *trace, size_t n, size_t pairs, uint64_t seed)
{
    unsigned char sets[MOST_PAIRS];
    start_draws(seed);
    trace->n = n;
    trace->pairs = pairs;
    memset(trace->start, ALL_STATES, pairs);
    memset(sets, ALL_STATES, pairs);
    for (size_t k = 0; k < n; k++) {
        struct drawn drawn = draw_next(sets, (unsigned)pairs, events_of_a_pair(n, (unsigned)pairs));
        trace->numbers[k] = (uint16_t)drawn.pair;
        put_event(trace->events + k * EVENT_BYTES, &drawn);
    }
}

/* Compares the judges on the measured traces and on many others, and ends the program where they differ. */
void check_judges(void);

#endif
