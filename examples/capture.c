/* Judges a binary capture, and prints each unexplained event and each duty that was handed over, lost or discarded.
 *
 *   capture [FILE]
 *
 * A capture starts with a mark of four bytes: 'C', 'H', 'I' and the length of an event, 15. Then comes a record of 17 bytes for
 * each event: the pair number in two bytes, low byte first, and the 15 bytes of the event. Without FILE it is read from standard
 * input. Every 16-bit number is a pair, so no event is refused with 3. Each pair starts with all seven states possible.
 *
 * The capture may have any length. It is judged KOREHYUMO_MOST_EVENTS events at a time, and the table of sets goes from each part
 * to the next.
 *
 * Records grew by one byte in version 0.2.0. An old capture has records of 16 bytes and no mark. Put the mark in front and a byte
 * 0 behind each record, and it is a new one. An input that does not start with the whole mark is refused with 1 at event 0 before
 * anything is judged: 17 records of the old format have the length of 16 new ones, so the length alone would not tell.
 *
 * Programs of versions 0.1.0 and 0.2.0 have 4,096 pairs. One of 0.1.0 judges nothing of a new capture: it refuses the mark, which
 * reads as a pair above 4,095, with 3 at event 0, or says that the capture ends within an event. One of 0.2.0 refuses the first
 * event of a pair above 4,095 with 3. */

#include <errno.h>
#include <stdio.h>
#include <string.h>
#include "korehyumo.h"

/* How a capture starts: three letters and the length of an event. */
static const uint8_t mark[4] = {'C', 'H', 'I', KOREHYUMO_EVENT_BYTES};

/* How many bytes a record has. */
#define RECORD_BYTES (2 + KOREHYUMO_EVENT_BYTES)

/* The pair number of a record is always in the table. */
_Static_assert(KOREHYUMO_MOST_PAIRS > UINT16_MAX, "every 16-bit number is a pair");

/* Up to KOREHYUMO_MOST_EVENTS events of a capture as they are lent to the judge, and what it answers. */
struct part {
    size_t count;
    uint8_t events[KOREHYUMO_MOST_EVENTS * KOREHYUMO_EVENT_BYTES];
    uint16_t pairs[KOREHYUMO_MOST_EVENTS];
    uint8_t verdicts[KOREHYUMO_MOST_EVENTS];
    uint8_t duties[KOREHYUMO_MOST_EVENTS];
    uint8_t afters[KOREHYUMO_MOST_EVENTS];
};

/* What the capture has shown so far: the set of each pair, and how many events got each verdict. */
struct known {
    uint8_t table[KOREHYUMO_MOST_PAIRS];
    unsigned long long verdicts[3];
};

/* How many events were judged so far. */
static unsigned long long events_known(const struct known *known)
{
    return known->verdicts[KOREHYUMO_EXPLAINED] + known->verdicts[KOREHYUMO_UNEXPLAINED] + known->verdicts[KOREHYUMO_NOT_JUDGED];
}

/* Reads up to so many bytes of a capture, fewer only at its end. Returns 0, with a message on standard error, if it can't. */
static int read_bytes(FILE *capture, uint8_t *bytes, size_t most, size_t *came)
{
    *came = fread(bytes, 1, most, capture);
    if (!ferror(capture))
        return 1;
    fprintf(stderr, "capture: it can't be read: %s\n", strerror(errno));
    return 0;
}

/* Reads the mark of a capture. Returns 0, with a message on standard error, if it can't or if there is none. */
static int read_mark(FILE *capture)
{
    uint8_t start[sizeof mark];
    size_t bytes;
    if (!read_bytes(capture, start, sizeof start, &bytes))
        return 0;
    if (bytes == sizeof mark && memcmp(start, mark, sizeof mark) == 0)
        return 1;
    fprintf(stderr, "capture: refused with %d at event 0\n", KOREHYUMO_LENGTHS);
    return 0;
}

/* Reads the next part of a capture. Returns 0, with a message on standard error, if it can't. */
static int read_part(FILE *capture, const struct known *known, struct part *part)
{
    static uint8_t records[KOREHYUMO_MOST_EVENTS * RECORD_BYTES];
    size_t bytes;
    if (!read_bytes(capture, records, sizeof records, &bytes))
        return 0;
    part->count = bytes / RECORD_BYTES;
    if (bytes % RECORD_BYTES != 0) {
        fprintf(stderr, "capture: it ends within event %llu\n", events_known(known) + part->count);
        return 0;
    }
    for (size_t k = 0; k < part->count; k++) {
        const uint8_t *record = records + k * RECORD_BYTES;
        part->pairs[k] = (uint16_t)(record[0] | record[1] << 8);
        memcpy(part->events + k * KOREHYUMO_EVENT_BYTES, record + 2, KOREHYUMO_EVENT_BYTES);
    }
    return 1;
}

/* Judges a part and updates the table of sets. Returns 0, with a message on standard error, if the part is refused. */
static int judge_part(struct known *known, struct part *part)
{
    size_t n = part->count;
    uint64_t result = korehyumo_trace(part->events, n * KOREHYUMO_EVENT_BYTES, part->pairs, n, known->table, sizeof known->table,
                                      part->verdicts, n, part->duties, n, part->afters, n);
    if (korehyumo_number(result) == KOREHYUMO_ACCEPTED)
        return 1;
    fprintf(stderr, "capture: refused with %u at event %llu\n", korehyumo_number(result), events_known(known) + korehyumo_place(result));
    return 0;
}

/* Prints the findings of a judged part, and counts its verdicts. */
static void tell_part(struct known *known, const struct part *part)
{
    static const char *const duties[] = {0, "Home holds the duty", "the Requester holds the duty", "the duty is lost",
                                         "the line is discarded"};
    unsigned long long first = events_known(known);
    for (size_t k = 0; k < part->count; k++) {
        const char *told = part->verdicts[k] == KOREHYUMO_UNEXPLAINED ? "unexplained" : duties[part->duties[k]];
        if (told)
            printf("event %llu, pair %u: %s\n", first + k, (unsigned)part->pairs[k], told);
        known->verdicts[part->verdicts[k]]++;
    }
}

/* Judges a whole capture. Returns the exit status. */
static int judge_capture(FILE *capture)
{
    static struct known known;
    static struct part part;
    if (!read_mark(capture))
        return 1;
    memset(known.table, KOREHYUMO_ALL_STATES, sizeof known.table);
    do {
        if (!read_part(capture, &known, &part) || !judge_part(&known, &part))
            return 1;
        tell_part(&known, &part);
    } while (part.count == KOREHYUMO_MOST_EVENTS);
    printf("%llu events: %llu explained, %llu unexplained, %llu not judged\n", events_known(&known), known.verdicts[KOREHYUMO_EXPLAINED],
           known.verdicts[KOREHYUMO_UNEXPLAINED], known.verdicts[KOREHYUMO_NOT_JUDGED]);
    return 0;
}

int main(int argc, char **argv)
{
    if (argc > 2) {
        fprintf(stderr, "usage: capture [FILE]\n");
        return 2;
    }
    FILE *capture = argc == 2 ? fopen(argv[1], "rb") : stdin;
    if (!capture) {
        fprintf(stderr, "capture: %s: %s\n", argv[1], strerror(errno));
        return 1;
    }
    int status = judge_capture(capture);
    if (fflush(stdout) != 0 || ferror(stdout)) {
        fprintf(stderr, "capture: the output can't be written: %s\n", strerror(errno));
        return 1;
    }
    return status;
}
