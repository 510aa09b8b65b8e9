/* What every judge here answers, and two judges of whole traces, each with korehyumo_trace's signature and whole meaning. */

#ifndef JUDGES_H
#define JUDGES_H

#include <stddef.h>
#include <stdint.h>
#include "../include/korehyumo.h"

/* How many bytes an event has. */
#define EVENT_BYTES KOREHYUMO_EVENT_BYTES

/* The most events of a trace. */
#define MOST_EVENTS KOREHYUMO_MOST_EVENTS

/* The most pairs of a trace or a sheet: as many as a pair number of 16 bits can tell apart. */
#define MOST_PAIRS KOREHYUMO_MOST_PAIRS

/* The numbers of the refusals, of which the last four are a sheet's or a list's alone. */
enum {
    ACCEPTED, WRONG_LENGTH, NO_SET, NO_PAIR, OUT_OF_RANGE, OTHER_REQUEST, TRACE_REFUSALS,
    NO_HEADER = TRACE_REFUSALS, TOO_LONG, MALFORMED, NO_ROOM, REFUSALS
};

/* The verdicts. */
enum { EXPLAINED, UNEXPLAINED, NOT_JUDGED, VERDICTS };

/* Who is told of the duty to write the data back. */
enum { DUTY_NONE, DUTY_HOME, DUTY_REQUESTER, DUTY_LOST, DUTY_DISCARDED, DUTIES };

/* What a judge says of an event: the set of its pair after it, the verdict and the duty. */
struct finding {
    unsigned after_set;
    unsigned verdict;
    unsigned duty;
};

/* The finding where an event leaves these states of a set, and tells this duty from these states before. */
static inline struct finding finding_of(unsigned before, unsigned after, unsigned duty, unsigned duty_from)
{
    if (after == 0)
        return (struct finding){0, before ? UNEXPLAINED : NOT_JUDGED, DUTY_NONE};
    return (struct finding){after, EXPLAINED, before & duty_from ? duty : DUTY_NONE};
}

/* What a judge of whole traces is lent. */
#define LENT \
    const uint8_t *events, size_t events_len, const uint16_t *pairs, size_t pairs_len, uint8_t *table, size_t table_len, \
    uint8_t *verdicts, size_t verdicts_len, uint8_t *duties, size_t duties_len, uint8_t *afters, size_t afters_len

/* A judge of whole traces. */
typedef uint64_t judge_of_traces(LENT);

/* Looks every event up in tables, which judges_ready has to have made. */
judge_of_traces by_table_trace;

/* Walks the rows for every event and every state of its pair's set. */
judge_of_traces by_rows_trace;

/* Makes the tables of by_table_trace, once, before its first call. */
void judges_ready(void);

/* The result that says this refusal, or none, at this place. */
static inline uint64_t result_of(unsigned refusal, size_t place)
{
    return place * 256 + refusal;
}

/* Whether the lengths lent fit each other and the limits. */
static inline int lengths_fit(size_t events_len, size_t pairs_len, size_t table_len, size_t verdicts_len, size_t duties_len,
                              size_t afters_len)
{
    size_t n = events_len / EVENT_BYTES;
    return events_len == n * EVENT_BYTES && n <= MOST_EVENTS && table_len <= MOST_PAIRS && pairs_len == n
        && verdicts_len == n && duties_len == n && afters_len == n;
}

#endif
