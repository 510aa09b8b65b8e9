/* The judges compared byte for byte: on the measured traces, on sweeps over all that an event can say, and on drawn traces. */

#define _DEFAULT_SOURCE
#include <signal.h>
#include <stdio.h>
#include <stdlib.h>
#include <string.h>
#include <sys/mman.h>
#include <unistd.h>
#include "traces.h"

/* Room for the events and the pair numbers of a trace; more than allowed are tried. */
enum { EVENTS_ROOM = (MOST_EVENTS + 4) * EVENT_BYTES, NUMBERS_ROOM = MOST_EVENTS + 4 };

/* The buffers that are written. */
enum { TABLE, VERDICT_BYTES, DUTY_BYTES, AFTER_BYTES, BUFFERS };

/* Room for the table and for each of the other buffers, and for the bytes around each, which must not change. */
enum {
    TABLE_ROOM = MOST_PAIRS + 4, ANSWERS_ROOM = MOST_EVENTS + 4, GUARD = 32,
    AREA = TABLE_ROOM + (BUFFERS - 1) * ANSWERS_ROOM + BUFFERS * 2 * GUARD
};

/* What is lent: two things to read and four buffers, each with its own length. */
struct lent {
    size_t events_len;
    size_t numbers_len;
    size_t lens[BUFFERS];
    uint8_t events[EVENTS_ROOM];
    uint16_t numbers[NUMBERS_ROOM];
    uint8_t table[TABLE_ROOM];
};

/* What a judge gave back: its result, and the four buffers with the bytes around them. */
struct left {
    uint64_t result;
    uint8_t area[AREA];
};

/* The trace at hand. */
static struct lent lent;

/* The names of the buffers. */
static const char *const buffer_names[BUFFERS] = {"table", "verdicts", "duties", "after-sets"};

/* Where the memory of the events and of the pair numbers ends; what follows can't be read. */
static uint8_t *events_end, *numbers_end;

/* What is being compared, for a message. */
static const char *volatile sweep = "";

/* How many traces and events were compared, and how many of each outcome there were. */
static unsigned long traces, events, refusals[TRACE_REFUSALS], verdicts[VERDICTS], duties[DUTIES];

/* The judge that is at work. */
static const char *volatile at_work = "";

/* Tells that a judge went past the end of what was lent, and ends the program. */
static void past_the_end(int number)
{
    const char *const words[] = {"check: ", sweep, ": ", at_work, " went past the end of what was lent\n"};
    (void)number;
    for (unsigned n = 0; n < sizeof words / sizeof words[0]; n++)
        if (write(2, words[n], strlen(words[n])) < 0)
            _exit(1);
    _exit(1);
}

/* The end of so many bytes of memory that a page follows which can't be touched. */
static uint8_t *fenced(size_t bytes)
{
    size_t page = (size_t)sysconf(_SC_PAGESIZE), whole = (bytes + page - 1) / page * page;
    uint8_t *start = mmap(0, whole + page, PROT_READ | PROT_WRITE, MAP_PRIVATE | MAP_ANONYMOUS, -1, 0);
    if (start == MAP_FAILED || mprotect(start + whole, page, PROT_NONE) != 0) {
        perror("check");
        exit(1);
    }
    return start + whole;
}

/* Where a buffer starts in the area. */
static size_t start_of(unsigned buffer)
{
    size_t at = GUARD + traces % 16;
    for (unsigned n = 0; n < buffer; n++)
        at += lent.lens[n] + GUARD;
    return at;
}

/* The area as it is before a call: the table lent, and elsewhere bytes that are in no answer. */
static void lay_out(uint8_t *area)
{
    size_t used = start_of(BUFFERS);
    for (size_t at = 0; at < used; at++)
        area[at] = (uint8_t)(160 + at % 64);
    memcpy(area + start_of(TABLE), lent.table, lent.lens[TABLE]);
}

/* Hands the trace to a judge. */
static void call(const struct judge *judge, struct left *left)
{
    uint8_t *lent_events = events_end - lent.events_len, *start[BUFFERS];
    uint16_t *lent_numbers = (uint16_t *)(void *)(numbers_end - lent.numbers_len * sizeof *lent_numbers);
    memcpy(lent_events, lent.events, lent.events_len);
    memcpy(lent_numbers, lent.numbers, lent.numbers_len * sizeof *lent_numbers);
    lay_out(left->area);
    for (unsigned n = 0; n < BUFFERS; n++)
        start[n] = left->area + start_of(n);
    at_work = judge->name;
    left->result = judge->judge(lent_events, lent.events_len, lent_numbers, lent.numbers_len, start[TABLE], lent.lens[TABLE],
                                start[VERDICT_BYTES], lent.lens[VERDICT_BYTES], start[DUTY_BYTES], lent.lens[DUTY_BYTES],
                                start[AFTER_BYTES], lent.lens[AFTER_BYTES]);
    if (memcmp(lent_events, lent.events, lent.events_len) != 0
        || memcmp(lent_numbers, lent.numbers, lent.numbers_len * sizeof *lent_numbers) != 0) {
        fprintf(stderr, "check: %s, trace %lu: %s wrote to what it may only read\n", sweep, traces, judge->name);
        exit(1);
    }
}

/* Where a byte of the area is, in words. */
static void tell_place(size_t at)
{
    for (unsigned n = 0; n < BUFFERS; n++)
        if (at >= start_of(n) && at < start_of(n) + lent.lens[n]) {
            fprintf(stderr, "%s, byte %zu", buffer_names[n], at - start_of(n));
            return;
        }
    fprintf(stderr, "outside the buffers, byte %zu", at);
}

/* Ends the program where two areas differ. */
static void same_area(const char *one_name, const uint8_t *one, const char *other_name, const uint8_t *other)
{
    size_t used = start_of(BUFFERS), at = 0;
    if (memcmp(one, other, used) == 0)
        return;
    while (one[at] == other[at])
        at++;
    fprintf(stderr, "check: %s, trace %lu: ", sweep, traces);
    tell_place(at);
    fprintf(stderr, ": %s has %u and %s %u\n", one_name, one[at], other_name, other[at]);
    exit(1);
}

/* Ends the program where a judge touched bytes around the buffers, or any byte though it refused. */
static void kept(const struct judge *judge, const struct left *left)
{
    static uint8_t before[AREA];
    lay_out(before);
    for (unsigned n = 0; n < BUFFERS && left->result % 256 == ACCEPTED; n++)
        memcpy(before + start_of(n), left->area + start_of(n), lent.lens[n]);
    same_area("what came", before, judge->name, left->area);
}

/* Counts the outcomes of the trace at hand. */
static void count(const struct left *left)
{
    unsigned refusal = (unsigned)(left->result % 256);
    events += lent.numbers_len;
    refusals[refusal < TRACE_REFUSALS ? refusal : 0]++;
    for (size_t k = 0; refusal == ACCEPTED && k < lent.numbers_len; k++) {
        verdicts[left->area[start_of(VERDICT_BYTES) + k] % VERDICTS]++;
        duties[left->area[start_of(DUTY_BYTES) + k] % DUTIES]++;
    }
    traces++;
}

/* Compares the judges on the trace at hand. */
static void compare(void)
{
    static struct left left[JUDGES];
    for (unsigned n = 0; n < JUDGES; n++) {
        call(&judges[n], &left[n]);
        kept(&judges[n], &left[n]);
        if (left[n].result != left[0].result) {
            fprintf(stderr, "check: %s, trace %lu: %s gives refusal %u at %u and %s %u at %u\n", sweep, traces, judges[0].name,
                    (unsigned)(left[0].result % 256), (unsigned)(left[0].result / 256), judges[n].name,
                    (unsigned)(left[n].result % 256), (unsigned)(left[n].result / 256));
            exit(1);
        }
        same_area(judges[0].name, left[0].area, judges[n].name, left[n].area);
    }
    count(&left[0]);
}

/* Gives the trace at hand the lengths that fit so many events and pairs. */
static void fit(size_t n, size_t pairs)
{
    lent.events_len = n * EVENT_BYTES;
    lent.numbers_len = n;
    lent.lens[TABLE] = pairs;
    lent.lens[VERDICT_BYTES] = lent.lens[DUTY_BYTES] = lent.lens[AFTER_BYTES] = n;
}

/* Makes the trace at hand the one drawn from a seed. */
static void make_seeded(size_t n, size_t pairs, uint64_t seed)
{
    static struct trace trace;
    make_trace(&trace, n, pairs, seed);
    fit(n, pairs);
    memcpy(lent.events, trace.events, lent.events_len);
    memcpy(lent.numbers, trace.numbers, n * sizeof trace.numbers[0]);
    memcpy(lent.table, trace.start, pairs);
}

/* Makes the trace at hand another good one. */
static void make_good(size_t n, size_t pairs)
{
    make_seeded(n, pairs, draw());
}

/* Puts a random number below a limit into a byte. */
static void put_below(uint8_t *byte, unsigned limit)
{
    *byte = (uint8_t)below(limit);
}

/* A random set: half of the time one state alone, now and then none. */
static uint8_t draw_set(void)
{
    return (uint8_t)(comes(1, 2) ? ONLY(below(STATES)) : comes(1, 16) ? 0 : below(ALL_STATES + 1));
}

/* The measured traces. */
static void measured(void)
{
    for (unsigned n = 0; n < SIZES; n++) {
        make_seeded(sizes[n].n, sizes[n].pairs, SEED);
        compare();
    }
}

/* Each value of each byte of an event at each place among seventeen, at times with a later fault. */
static void byte_values(void)
{
    for (unsigned n = 0; n < 17 * EVENT_BYTES * 256; n++) {
        if (n % 256 == 0)
            make_good(17, 5);
        unsigned at = n / 256;
        uint8_t byte = lent.events[at], *later = &lent.events[below(17 * EVENT_BYTES)], later_byte = *later;
        if (comes(1, 4) && later > &lent.events[at])
            *later = (uint8_t)below(256);
        lent.events[at] = (uint8_t)n;
        compare();
        lent.events[at] = byte;
        *later = later_byte;
    }
}

/* Pair numbers below the table's length, at it and above it, at each place among seventeen. */
static void pair_numbers(void)
{
    for (unsigned n = 0; n < 17 * 256; n++) {
        make_good(17, 1 + below(40));
        unsigned pairs = (unsigned)lent.lens[TABLE];
        const unsigned near[] = {
            pairs - 1, pairs, pairs + 1, 255, 256, MOST_EVENTS - 1, MOST_EVENTS, MOST_PAIRS / 2 - 1, MOST_PAIRS / 2, MOST_PAIRS - 1,
            below(MOST_PAIRS),
        };
        lent.numbers[n % 17] = (uint16_t)near[below(sizeof near / sizeof near[0])];
        if (comes(1, 4))
            put_below(&lent.events[below(17 * EVENT_BYTES)], 256);
        compare();
    }
}

/* A set above 127 at each place of tables of up to eighty pairs, at times with another one or with a bad event. */
static void bad_sets(void)
{
    for (unsigned n = 0; n < 80 * 80; n++) {
        unsigned pairs = n / 80 + 1;
        make_good(below(4), pairs);
        if (n % 80 < pairs)
            lent.table[n % 80] = (uint8_t)(128 + below(128));
        if (comes(1, 4))
            lent.table[below(pairs)] = 128;
        if (comes(1, 4))
            lent.events[0] = lent.events[1] = 255;
        compare();
    }
}

/* Up to forty events of one byte less, of the right length and of one byte more. */
static void event_lengths(void)
{
    for (unsigned n = 0; n < 41 * 3; n++) {
        make_good(n / 3, 1 + below(5));
        lent.events_len = n / 3 * (EVENT_BYTES - 1 + n % 3);
        compare();
    }
}

/* Lengths that don't fit, whatever else is wrong. */
static void lengths(void)
{
    for (unsigned n = 0; n < 6000; n++) {
        size_t pairs = 1 + below(5);
        make_good(below(12), pairs);
        size_t *const each[6] = {&lent.events_len, &lent.numbers_len, &lent.lens[1], &lent.lens[2], &lent.lens[3], &lent.lens[0]};
        size_t *one = each[n % 6];
        *one = comes(1, 2) ? below(200) : *one + (comes(1, 2) || *one == 0 ? 1 : (size_t)-1);
        if (comes(1, 4))
            lent.table[0] = 255;
        compare();
    }
}

/* Starts a trace of sixty-four events, each on a pair of its own with a random set. */
static void start_sweep(void)
{
    fit(64, 64);
    for (unsigned k = 0; k < 64; k++) {
        lent.numbers[k] = (uint16_t)k;
        lent.table[k] = draw_set();
    }
}

/* The n-th event of all that differ in request, flags, tag state, answer, forward, tag operation or one of the two error fields. */
static struct drawn numbered(unsigned n)
{
    unsigned rest = n / (8 * TAGS * TAG_OPS * ERRORS * ERRORS);
    struct drawn drawn = {.request = rest % REQUESTS, .excl = n & 1, .state_after = STATE_NOT_SEEN};
    drawn.event = (struct event){
        .ret_to_src = n >> 1 & 1, .do_not_go_to_sd = n >> 2 & 1, .tag = n >> 3 & 3, .tag_op = n >> 5 & 3, .resp_err = n >> 7 & 3,
        .fwd_err = n >> 9 & 3, .response = (unsigned char)(rest / REQUESTS % RESPONSES),
        .forward = (unsigned char)(rest / REQUESTS / RESPONSES),
    };
    return drawn;
}

/* Each of those events from each state alone, and from a random set with a random state after. */
static void answers(void)
{
    unsigned all = REQUESTS * 8 * TAGS * RESPONSES * FORWARDS * TAG_OPS * ERRORS * ERRORS;
    for (unsigned n = 0; n < all * 8; n++) {
        struct drawn drawn = numbered(n / 8);
        unsigned state = n % 8, k = n % 64;
        if (k == 0)
            start_sweep();
        if (state < STATES)
            lent.table[k] = (uint8_t)ONLY(state);
        else
            drawn.state_after = below(STATES + 1);
        put_event(lent.events + k * EVENT_BYTES, &drawn);
        if (k == 63)
            compare();
    }
}

/* Every channel, opcode, Resp and FwdState with every forward and its error field, in events that some row permits but for that. */
static void messages(void)
{
    for (unsigned n = 0; n < 2 * 32 * 8 * 8 * 2 * 8 * ERRORS; n++) {
        struct drawn drawn = draw_permitted(below(STATES), ALL_STATES);
        uint8_t *bytes = lent.events + n % 64 * EVENT_BYTES;
        if (n % 64 == 0)
            start_sweep();
        put_event(bytes, &drawn);
        bytes[FWD_ERR_AT] = n & 3;
        bytes[FORWARDED_RESP_AT] = n >> 2 & 7;
        bytes[FORWARDED_AT] = n >> 5 & 1;
        bytes[FWD_STATE_AT] = n >> 6 & 7;
        bytes[RESP_AT] = n >> 9 & 7;
        bytes[OPCODE_AT] = n >> 12 & 31;
        bytes[CHANNEL_AT] = (uint8_t)(n >> 17);
        if (n % 64 == 63)
            compare();
    }
}

/* Damages the trace at hand in a random way. */
static void damage(void)
{
    unsigned k = below((unsigned)lent.numbers_len), pairs = (unsigned)lent.lens[TABLE];
    uint8_t *bytes = lent.events + k * EVENT_BYTES;
    switch (below(6)) {
    case 0:
        put_below(&bytes[below(EVENT_BYTES)], 256);
        break;
    case 1:
        put_below(&bytes[REQUEST_AT], 32);
        break;
    case 2:
        for (unsigned at = 0; at < EVENT_BYTES; at++)
            put_below(&bytes[at], 256);
        break;
    case 3:
        lent.numbers[k] = (uint16_t)(comes(1, 2) ? pairs : below(MOST_PAIRS));
        break;
    case 4:
        put_below(&lent.table[below(pairs)], 256);
        break;
    default:
        lent.lens[below(BUFFERS)]++;
    }
}

/* Short traces over up to so many pairs with bytes changed within their ranges, the last more often than others, a quarter damaged. */
static void drawn_over(unsigned most_pairs, unsigned count)
{
    for (unsigned n = 0; n < count; n++) {
        size_t pairs = 1 + below(most_pairs);
        make_good(1 + below(24), pairs);
        for (size_t pair = 0; pair < lent.lens[TABLE] && n % 2; pair++)
            lent.table[pair] = draw_set();
        for (size_t k = 0; k < lent.numbers_len; k++) {
            unsigned at = 1 + below(EVENT_BYTES - 1);
            if (comes(1, 6))
                lent.events[k * EVENT_BYTES + at] = (uint8_t)below(largest[at] + 1u);
            if (comes(1, 16))
                put_below(&lent.events[k * EVENT_BYTES + FWD_ERR_AT], ERRORS);
        }
        while (comes(1, 4))
            damage();
        compare();
    }
}

/* Drawn traces over few pairs. */
static void drawn_traces(void)
{
    drawn_over(6, 40000);
}

/* Drawn traces over any number of pairs. */
static void over_many_pairs(void)
{
    drawn_over(MOST_PAIRS, 3000);
}

/* Compares on the first so many events of the trace at hand and so many of its pairs, also with the last set, event or both bad. */
static void compare_first(size_t n, size_t pairs)
{
    uint8_t *last_set = &lent.table[pairs ? pairs - 1 : 0], *last_byte = &lent.events[n ? n * EVENT_BYTES - 1 : 0];
    const uint8_t set = *last_set, byte = *last_byte;
    fit(n, pairs);
    for (unsigned bad = 0; bad < 4; bad++) {
        *last_set = bad & 1 ? ALL_STATES + 1 : set;
        *last_byte = bad & 2 ? 255 : byte;
        compare();
    }
    *last_set = set;
    *last_byte = byte;
}

/* As many events and pairs as a call takes, one less, one more, and few; and tables around the most events, which is not their limit. */
static void limits(void)
{
    static const size_t pairs[] = {0, 1, MOST_EVENTS - 1, MOST_EVENTS, MOST_EVENTS + 1, MOST_PAIRS - 1, MOST_PAIRS, MOST_PAIRS + 1};
    static const size_t ns[] = {0, 3, 64, MOST_EVENTS - 1, MOST_EVENTS, MOST_EVENTS + 1};
    enum { LENGTHS = sizeof pairs / sizeof pairs[0], COUNTS = sizeof ns / sizeof ns[0] };
    for (unsigned n = 0; n < LENGTHS * COUNTS; n++) {
        size_t some = pairs[n / COUNTS];
        if (n % COUNTS == 0)
            make_good(MOST_EVENTS, some > MOST_PAIRS ? MOST_PAIRS : some ? some : 1);
        compare_first(ns[n % COUNTS], some);
    }
}

/* Where a judge may take a table for shorter than it is: at as many pairs as events, at half of all pairs, and at all. */
static const unsigned edges[] = {MOST_EVENTS, MOST_PAIRS / 2, MOST_PAIRS};

/* How many places around the edges are tried, four for each, and how many tables for a place. */
enum { FAR_PLACES = 4 * sizeof edges / sizeof edges[0], FAR_TABLES = 4 };

/* The place with this number around the edges, from two below an edge on. */
static unsigned far_place(unsigned n)
{
    return edges[n / 4] - 2 + n % 4;
}

/* The length of a table that just doesn't have a place, just has it, has one more, or is the longest. */
static size_t far_length(unsigned place, unsigned n)
{
    return n < FAR_TABLES - 1 ? place + n : MOST_PAIRS;
}

/* Gives all pairs that there can be random sets. */
static void draw_sets(void)
{
    for (size_t pair = 0; pair < TABLE_ROOM; pair++)
        lent.table[pair] = draw_set();
}

/* Pair numbers around the edges, first met at each place among seventeen, in tables that just have them and just don't. */
static void far_pairs(void)
{
    draw_sets();
    for (unsigned n = 0; n < FAR_PLACES * FAR_TABLES * 17; n++) {
        unsigned far = far_place(n / 17 / FAR_TABLES), first = n % 17;
        if (far >= MOST_PAIRS)
            continue;
        make_good(17, 5);
        fit(17, far_length(far, n / 17 % FAR_TABLES));
        for (unsigned k = first; k < 17; k++)
            if (k == first || lent.numbers[k] == 0)
                lent.numbers[k] = (uint16_t)far;
        if (comes(1, 4))
            put_below(&lent.events[below(17 * EVENT_BYTES)], 256);
        compare();
    }
}

/* A set above 127 around the edges, then at drawn places, in tables as for pair numbers, at times with another one or a bad event. */
static void far_bad_sets(void)
{
    enum { EACH = 8, AT_EDGES = FAR_PLACES * FAR_TABLES * EACH, DRAWN = 4000 };
    draw_sets();
    for (unsigned n = 0; n < AT_EDGES + DRAWN; n++) {
        unsigned place = n < AT_EDGES ? far_place(n / FAR_TABLES / EACH) : below(MOST_PAIRS);
        unsigned other = comes(1, 4) ? below(MOST_PAIRS) : place;
        make_good(below(4), 5);
        fit(lent.numbers_len, far_length(place, n % FAR_TABLES));
        lent.table[other] = 128;
        lent.table[place] = (uint8_t)(128 + below(128));
        if (comes(1, 4))
            lent.events[0] = lent.events[1] = 255;
        compare();
        lent.table[place] = draw_set();
        lent.table[other] = draw_set();
    }
}

/* Ends the program where some outcome never came. */
static void all_came(const char *what, const unsigned long *counts, unsigned different)
{
    for (unsigned n = 0; n < different; n++)
        if (counts[n] == 0) {
            fprintf(stderr, "check: no trace had %s %u\n", what, n);
            exit(1);
        }
}

void check_judges(void)
{
    static void (*const sweeps[])(void) = {
        measured, byte_values, pair_numbers, bad_sets, lengths, event_lengths, answers, messages, drawn_traces,
        over_many_pairs, limits, far_pairs, far_bad_sets,
    };
    static const char *const names[] = {
        "measured traces", "byte values", "pair numbers", "bad sets", "lengths", "event lengths", "answers", "messages", "drawn traces",
        "traces over many pairs", "limits", "far pairs", "far bad sets",
    };
    events_end = fenced(EVENTS_ROOM);
    numbers_end = fenced(NUMBERS_ROOM * sizeof(uint16_t));
    signal(SIGSEGV, past_the_end);
    signal(SIGBUS, past_the_end);
    for (unsigned n = 0; n < sizeof sweeps / sizeof sweeps[0]; n++) {
        source = SEED + n;
        sweep = names[n];
        sweeps[n]();
    }
    signal(SIGSEGV, SIG_DFL);
    signal(SIGBUS, SIG_DFL);
    all_came("refusal", refusals, TRACE_REFUSALS);
    all_came("verdict", verdicts, VERDICTS);
    all_came("duty", duties, DUTIES);
    printf("check: the judges agree on %lu traces with %lu events; refusals 0 to 5: %lu %lu %lu %lu %lu %lu\n", traces, events,
           refusals[0], refusals[1], refusals[2], refusals[3], refusals[4], refusals[5]);
}
