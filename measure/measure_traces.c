/* Checks or measures the judges of whole traces: measure_traces check | time | repeat JUDGE EVENTS PAIRS TIMES. */

#define _POSIX_C_SOURCE 200809L
#include <stdio.h>
#include <stdlib.h>
#include <string.h>
#include "../include/korehyumo.h"
#include "rounds.h"
#include "traces.h"

/* Does nothing with a trace, so that what stands around a call can be measured by itself. */
static uint64_t nothing(LENT)
{
    (void)events, (void)pairs, (void)table, (void)verdicts, (void)duties, (void)afters;
    (void)events_len, (void)pairs_len, (void)table_len, (void)verdicts_len, (void)duties_len, (void)afters_len;
    return 0;
}

/* Hands each event of a trace in alone. */
static uint64_t each_alone(LENT)
{
    static uint8_t sets[7], duties_alone[7];
    (void)pairs, (void)table, (void)verdicts, (void)duties, (void)afters;
    (void)pairs_len, (void)table_len, (void)verdicts_len, (void)duties_len, (void)afters_len;
    for (size_t at = 0; at < events_len; at += EVENT_BYTES)
        korehyumo_event(events + at, EVENT_BYTES, sets, duties_alone);
    return 0;
}

const struct judge judges[MEASURED] = {
    {"proved", korehyumo_trace}, {"by_table", by_table_trace}, {"by_rows", by_rows_trace}, {"around", nothing}, {"alone", each_alone},
};

const struct size sizes[SIZES] = {
    {64, 64}, {512, 64}, {MOST_EVENTS, 64}, {MOST_EVENTS, 512}, {MOST_EVENTS, 4096}, {MOST_EVENTS, MOST_PAIRS}, {0, 4096}, {0, MOST_PAIRS},
};

/* The measured traces. */
static struct trace traces[SIZES];

/* The buffers that a judge writes. */
static uint8_t table[MOST_PAIRS], verdicts[MOST_EVENTS], duties[MOST_EVENTS], afters[MOST_EVENTS];

/* Judges a trace so many times, each time from its starting sets; the outputs are not cleared. */
static void repeat(const struct judge *judge, const struct trace *trace, unsigned long times)
{
    judge_of_traces *volatile call = judge->judge;
    for (unsigned long n = 0; n < times; n++) {
        memcpy(table, trace->start, trace->pairs);
        call(trace->events, trace->n * EVENT_BYTES, trace->numbers, trace->n, table, trace->pairs, verdicts, trace->n, duties,
             trace->n, afters, trace->n);
    }
}

/* Judges the trace of a cell with the judge of that cell so many times. */
static void repeat_cell(unsigned cell, unsigned long times)
{
    repeat(&judges[cell % MEASURED], &traces[cell / MEASURED], times);
}

/* Measures and prints the time of a call of each judge on each trace. */
static void print_times(void)
{
    enum { CELLS = SIZES * MEASURED };
    static struct timed timed[CELLS];
    take_times(timed, CELLS, repeat_cell);
    for (unsigned cell = 0; cell < CELLS; cell++) {
        const struct trace *trace = &traces[cell / MEASURED];
        printf("time %s %zu %zu %.3f\n", judges[cell % MEASURED].name, trace->n, trace->pairs, timed[cell].least);
    }
}

/* Prints how many events of a trace have each verdict. */
static void print_verdicts(const struct trace *trace)
{
    unsigned counts[VERDICTS] = {0};
    repeat(&judges[0], trace, 1);
    for (size_t k = 0; k < trace->n; k++)
        counts[verdicts[k]]++;
    printf("verdicts %zu %zu %u %u %u\n", trace->n, trace->pairs, counts[EXPLAINED], counts[UNEXPLAINED], counts[NOT_JUDGED]);
}

/* Ends the program where a request, an answer, or one of the two errors that forwarded data may have never occurs in a trace. */
static void all_occur(const struct trace *trace)
{
    unsigned requests = 0, responses = 0, fwd_errs = 0;
    for (size_t k = 0; k < trace->n; k++) {
        const uint8_t *bytes = trace->events + k * EVENT_BYTES;
        requests |= 1u << request_of(bytes[REQUEST_AT]);
        responses |= 1u << response_of(bytes[CHANNEL_AT], bytes[OPCODE_AT], bytes[RESP_AT], bytes[FWD_STATE_AT]);
        fwd_errs |= bytes[FORWARDED_AT] ? 1u << bytes[FWD_ERR_AT] : 0;
    }
    if (requests == (1u << REQUESTS) - 1 && responses == (1u << RESPONSES) - 1 && fwd_errs == (1u << OK | 1u << DERR))
        return;
    fprintf(stderr, "measure_traces: a request, an answer or an error field does not occur among %zu events\n", trace->n);
    exit(1);
}

/* Measures all judges on all sizes, and tells how many bytes an event has and the most events and pairs of a call. */
static void measure(void)
{
    print_rounds();
    printf("limits %d %d %d\n", EVENT_BYTES, MOST_EVENTS, MOST_PAIRS);
    for (unsigned n = 0; n < SIZES; n++) {
        make_trace(&traces[n], sizes[n].n, sizes[n].pairs, SEED);
        if (traces[n].n == MOST_EVENTS)
            all_occur(&traces[n]);
        print_verdicts(&traces[n]);
    }
    print_times();
}

/* Calls one judge so many times, for its instructions to be counted. */
static int repeat_one(char **words)
{
    make_trace(&traces[0], strtoul(words[1], 0, 10), strtoul(words[2], 0, 10), SEED);
    if (strcmp(words[0], "by_table") == 0)
        judges_ready();
    for (unsigned n = 0; n < MEASURED; n++)
        if (strcmp(words[0], judges[n].name) == 0) {
            repeat(&judges[n], &traces[0], strtoul(words[3], 0, 10));
            return 0;
        }
    fprintf(stderr, "measure_traces: there is no judge %s\n", words[0]);
    return 2;
}

/* Checks, measures or repeats, as the arguments say. */
int main(int count, char **words)
{
    if (count == 6 && strcmp(words[1], "repeat") == 0)
        return repeat_one(words + 2);
    judges_ready();
    if (count == 2 && strcmp(words[1], "check") == 0)
        check_judges();
    else if (count == 2 && strcmp(words[1], "time") == 0)
        measure();
    else {
        fprintf(stderr, "usage: measure_traces check | time | repeat JUDGE EVENTS PAIRS TIMES\n");
        return 2;
    }
    return fflush(stdout) == 0 && !ferror(stdout) ? 0 : 1;
}
