/* Tests what the header says of the edges of the C interface: lengths, null pointers, pair numbers, places, rooms, and that a
 * refused trace or question writes nothing. */

#include <stdio.h>
#include <string.h>
#include "korehyumo.h"

/* One more than the most events of a call. */
#define TOO_MANY_EVENTS (KOREHYUMO_MOST_EVENTS + 1)

/* One more than the most pairs of a call. */
#define TOO_MANY_PAIRS (KOREHYUMO_MOST_PAIRS + 1)

/* The last pair of the largest table, which is the highest 16-bit number. */
#define LAST_PAIR (KOREHYUMO_MOST_PAIRS - 1)

/* The most pairs of a call in version 0.2.0. */
#define OLD_MOST_PAIRS 4096

/* The byte that fills the outputs before a call; no answer has it. */
#define BEFORE 0x5A

/* The buffers of a call, each with one element more than is ever lent. */
static uint8_t events[TOO_MANY_EVENTS * KOREHYUMO_EVENT_BYTES + 1];
static uint16_t pairs[TOO_MANY_EVENTS + 1];
static uint8_t table[TOO_MANY_PAIRS + 1];
static uint8_t verdicts[TOO_MANY_EVENTS + 1], duties[TOO_MANY_EVENTS + 1], afters[TOO_MANY_EVENTS + 1];

/* How many checks failed. */
static int wrong;

/* SnpClean answered by SnpResp_SC: explained from UC and from SC. */
static const uint8_t good[KOREHYUMO_EVENT_BYTES] = {2, 0, 0, 0, 0, 0, 1, 1, 0, 0, 0, 0, 0, 7, 0};

/* SnpCleanFwd answered by SnpResp_SC_Fwded_SD_PD: explained from UD and from SD. */
static const uint8_t forwarded[KOREHYUMO_EVENT_BYTES] = {18, 0, 0, 0, 0, 0, 9, 1, 7, 0, 0, 1, 7, 7, 0};

/* The byte of an event that is the error field of forwarded data. */
#define FWD_ERR 14

/* How many bytes an event had before that byte was added. */
#define OLD_EVENT_BYTES 14

/* Counts and prints a check that fails. */
static void hold(const char *what, int holds)
{
    if (holds)
        return;
    printf("border: %s\n", what);
    wrong++;
}

/* Makes every event good and of pair 0, gives every pair all seven states, and fills the outputs with BEFORE. */
static void fill(void)
{
    for (size_t k = 0; k < TOO_MANY_EVENTS; k++)
        memcpy(events + k * KOREHYUMO_EVENT_BYTES, good, sizeof good);
    memset(pairs, 0, sizeof pairs);
    memset(table, KOREHYUMO_ALL_STATES, sizeof table);
    memset(verdicts, BEFORE, sizeof verdicts);
    memset(duties, BEFORE, sizeof duties);
    memset(afters, BEFORE, sizeof afters);
}

/* Judges the buffers with these lengths. */
static uint64_t judge(size_t event_bytes, size_t pair_numbers, size_t sets, size_t v, size_t d, size_t a)
{
    return korehyumo_trace(events, event_bytes, pairs, pair_numbers, table, sets, verdicts, v, duties, d, afters, a);
}

/* Judges the first n events with a table of so many sets. */
static uint64_t judge_first(size_t n, size_t sets)
{
    return judge(n * KOREHYUMO_EVENT_BYTES, n, sets, n, n, n);
}

/* Whether every byte of a buffer is this one. */
static int all(const uint8_t *bytes, size_t len, uint8_t byte)
{
    for (size_t n = 0; n < len; n++)
        if (bytes[n] != byte)
            return 0;
    return 1;
}

/* Whether the table is as it was filled, except at one pair. */
static int others_stay(size_t pair)
{
    return all(table, pair, KOREHYUMO_ALL_STATES) && all(table + pair + 1, sizeof table - pair - 1, KOREHYUMO_ALL_STATES);
}

/* Whether the outputs are as they were filled. */
static int no_outputs(void)
{
    return all(verdicts, sizeof verdicts, BEFORE) && all(duties, sizeof duties, BEFORE) && all(afters, sizeof afters, BEFORE);
}

/* Whether the outputs and the table are as they were filled. */
static int untouched(void)
{
    return no_outputs() && all(table, sizeof table, KOREHYUMO_ALL_STATES);
}

/* Wrong lengths are refused with 1 at place 0, and nothing is written. */
static void wrong_lengths(void)
{
    fill();
    for (int buffer = 0; buffer < 5; buffer++)
        for (int off = -1; off <= 1; off += 2) {
            size_t n[5] = {3 * KOREHYUMO_EVENT_BYTES, 3, 3, 3, 3};
            n[buffer] += (size_t)off;
            hold("a wrong length is 1", judge(n[0], n[1], 8, n[2], n[3], n[4]) == KOREHYUMO_LENGTHS);
        }
    hold("4,097 events are 1", judge_first(TOO_MANY_EVENTS, 8) == KOREHYUMO_LENGTHS);
    hold("4,097 events over 65,536 pairs are 1", judge_first(TOO_MANY_EVENTS, KOREHYUMO_MOST_PAIRS) == KOREHYUMO_LENGTHS);
    hold("65,537 pairs are 1", judge_first(0, TOO_MANY_PAIRS) == KOREHYUMO_LENGTHS);
    hold("one event over 65,537 pairs is 1", judge_first(1, TOO_MANY_PAIRS) == KOREHYUMO_LENGTHS);
    hold("4,096 events over 65,537 pairs are 1", judge_first(KOREHYUMO_MOST_EVENTS, TOO_MANY_PAIRS) == KOREHYUMO_LENGTHS);
    hold("lengths that are refused write nothing", untouched());
}

/* Tables of one set up to 65,536 sets are accepted, without events and with as many as there may be. */
static void table_lengths(void)
{
    static const size_t lengths[] = {1, OLD_MOST_PAIRS, OLD_MOST_PAIRS + 1, LAST_PAIR, KOREHYUMO_MOST_PAIRS};
    for (size_t k = 0; k < sizeof lengths / sizeof *lengths; k++) {
        fill();
        hold("a table without events is accepted", judge_first(0, lengths[k]) == 0 && untouched());
        hold("a table with 4,096 events is accepted", judge_first(KOREHYUMO_MOST_EVENTS, lengths[k]) == KOREHYUMO_MOST_EVENTS * 256);
        hold("only the set of their pair is written", table[0] == (KOREHYUMO_I | KOREHYUMO_SC) && others_stay(0));
    }
}

/* Pairs around 4,096 and the last one are judged on the largest table, each set is written, and no other. */
static void high_pairs(void)
{
    static const uint16_t high[] = {OLD_MOST_PAIRS - 1, OLD_MOST_PAIRS, OLD_MOST_PAIRS + 1, LAST_PAIR - 1, LAST_PAIR};
    for (size_t k = 0; k < sizeof high / sizeof *high; k++) {
        size_t pair = high[k];
        fill();
        pairs[0] = high[k];
        hold("a high pair past the table is 3", judge_first(1, pair) == KOREHYUMO_PAIR && untouched());
        hold("a high pair is judged", judge_first(1, KOREHYUMO_MOST_PAIRS) == 256);
        hold("its event is explained", verdicts[0] == KOREHYUMO_EXPLAINED && duties[0] == KOREHYUMO_DUTY_NONE);
        hold("its set is written", afters[0] == (KOREHYUMO_I | KOREHYUMO_SC) && table[pair] == afters[0]);
        hold("no other set is written", others_stay(pair));
    }
}

/* Pairs that are equal modulo 4,096 have sets of their own: an event of each is judged on its own set. */
static void pairs_alike(void)
{
    static const uint8_t starts[3] = {KOREHYUMO_SC, KOREHYUMO_UD, 0};
    static const uint8_t judged[3] = {KOREHYUMO_EXPLAINED, KOREHYUMO_UNEXPLAINED, KOREHYUMO_NOT_JUDGED};
    static const uint8_t left[3] = {KOREHYUMO_I | KOREHYUMO_SC, 0, 0};
    size_t n = KOREHYUMO_MOST_PAIRS / OLD_MOST_PAIRS;
    fill();
    for (size_t k = 0; k < n; k++) {
        pairs[k] = (uint16_t)(LAST_PAIR - k * OLD_MOST_PAIRS);
        table[pairs[k]] = starts[k % 3];
    }
    hold("16 pairs are judged", n == 16 && judge_first(n, KOREHYUMO_MOST_PAIRS) == n * 256);
    for (size_t k = 0; k < n; k++) {
        hold("each pair has its verdict", verdicts[k] == judged[k % 3] && duties[k] == KOREHYUMO_DUTY_NONE);
        hold("each pair has its set", afters[k] == left[k % 3] && table[pairs[k]] == left[k % 3]);
        table[pairs[k]] = KOREHYUMO_ALL_STATES;
    }
    hold("the sets of the other pairs stay", all(table, sizeof table, KOREHYUMO_ALL_STATES));
}

/* Old traces, of n pairs and n events of 14 bytes, are refused with 1 whatever n is, and nothing is written. */
static void old_traces(void)
{
    fill();
    for (size_t n = 1; n <= KOREHYUMO_MOST_EVENTS; n++)
        hold("an old trace is 1", judge(n * OLD_EVENT_BYTES, n, KOREHYUMO_MOST_PAIRS, n, n, n) == KOREHYUMO_LENGTHS);
    hold("old traces write nothing", untouched());
}

/* Refusals at the last event have place 4,095, and nothing is written; 3 needs a table without the last pair. */
static void last_event(void)
{
    size_t n = KOREHYUMO_MOST_EVENTS, last = n - 1;
    fill();
    pairs[last] = LAST_PAIR;
    events[last * KOREHYUMO_EVENT_BYTES] = 3;
    hold("5 at event 4,095", judge_first(n, KOREHYUMO_MOST_PAIRS) == last * 256 + KOREHYUMO_REQUEST);
    events[last * KOREHYUMO_EVENT_BYTES + FWD_ERR] = 4;
    hold("4 at event 4,095", judge_first(n, KOREHYUMO_MOST_PAIRS) == last * 256 + KOREHYUMO_RANGE);
    hold("3 at event 4,095", judge_first(n, LAST_PAIR) == last * 256 + KOREHYUMO_PAIR);
    hold("refused events write nothing", untouched());
}

/* A set above 127 at pair 65,535 is refused with that place, before a bad event, and nothing is written. */
static void last_set(void)
{
    uint64_t refused = (uint64_t)LAST_PAIR * 256 + KOREHYUMO_SET;
    fill();
    table[LAST_PAIR] = 128;
    hold("2 at pair 65,535 without events", judge_first(0, KOREHYUMO_MOST_PAIRS) == refused);
    hold("2 at pair 65,535 with 4,096 events", judge_first(KOREHYUMO_MOST_EVENTS, KOREHYUMO_MOST_PAIRS) == refused);
    events[0] = 3;
    hold("2 before 5", judge_first(1, KOREHYUMO_MOST_PAIRS) == refused);
    hold("a refused set stays", no_outputs() && others_stay(LAST_PAIR) && table[LAST_PAIR] == 128);
    hold("a set past the table is not looked at", judge_first(1, LAST_PAIR) == KOREHYUMO_REQUEST);
    table[OLD_MOST_PAIRS] = 255;
    hold("the lowest pair with such a set", judge_first(0, KOREHYUMO_MOST_PAIRS) == OLD_MOST_PAIRS * 256 + KOREHYUMO_SET);
}

/* The longest trace over the largest table is accepted with place 4,096, and nothing is written past the lengths lent. */
static void longest(void)
{
    size_t n = KOREHYUMO_MOST_EVENTS;
    fill();
    hold("4,096 events are accepted", judge_first(n, KOREHYUMO_MOST_PAIRS) == n * 256);
    hold("all are explained", all(verdicts, n, KOREHYUMO_EXPLAINED) && all(duties, n, KOREHYUMO_DUTY_NONE));
    hold("each leaves I or SC", all(afters, n, KOREHYUMO_I | KOREHYUMO_SC) && table[0] == (KOREHYUMO_I | KOREHYUMO_SC));
    hold("other pairs stay", others_stay(0));
    hold("nothing past a length is written", verdicts[n] == BEFORE && duties[n] == BEFORE && afters[n] == BEFORE);
}

/* A null pointer with length 0 is an empty buffer. */
static void null_for_none(void)
{
    size_t one = KOREHYUMO_EVENT_BYTES;
    fill();
    hold("no events, no pairs", korehyumo_trace(0, 0, 0, 0, 0, 0, 0, 0, 0, 0, 0, 0) == 0);
    hold("no events", korehyumo_trace(0, 0, 0, 0, table, 8, 0, 0, 0, 0, 0, 0) == 0 && table[0] == KOREHYUMO_ALL_STATES);
    hold("no pairs: 3 at event 0", korehyumo_trace(events, one, pairs, 1, 0, 0, verdicts, 1, duties, 1, afters, 1) == KOREHYUMO_PAIR);
    hold("no verdicts: 1", korehyumo_trace(events, one, pairs, 1, table, 8, 0, 0, duties, 1, afters, 1) == KOREHYUMO_LENGTHS);
    hold("null calls write nothing", untouched());
}

/* One event alone: the result is 256 or the refusal, and the seven sets and duties are always written. */
static void one_event(void)
{
    uint8_t event[KOREHYUMO_EVENT_BYTES + 1] = {0}, sets[7], alone[7];
    size_t whole = KOREHYUMO_EVENT_BYTES;
    memcpy(event, good, sizeof good);
    const uint8_t explained[7] = {0, 33, 0, 0, 0, 33, 0};
    memset(sets, BEFORE, 7);
    memset(alone, BEFORE, 7);
    hold("a good event is 256", korehyumo_event(event, whole, sets, alone) == 256 && memcmp(sets, explained, 7) == 0 && all(alone, 7, 0));
    hold("an old event is 1", korehyumo_event(event, OLD_EVENT_BYTES, sets, alone) == KOREHYUMO_LENGTHS);
    for (size_t len = 0; len <= whole + 1; len++) {
        memset(sets, BEFORE, 7);
        memset(alone, BEFORE, 7);
        uint64_t result = korehyumo_event(len == 0 ? 0 : event, len, sets, alone);
        hold("another length is 1, with empty sets and no duty", len == whole || (result == 1 && all(sets, 7, 0) && all(alone, 7, 0)));
    }
    event[0] = 3;
    hold("another request is 5", korehyumo_event(event, whole, sets, alone) == KOREHYUMO_REQUEST && all(sets, 7, 0) && all(alone, 7, 0));
    event[1] = 2;
    hold("a byte out of range is 4", korehyumo_event(event, whole, sets, alone) == KOREHYUMO_RANGE);
}

/* An event with every value of its last byte: 0 is explained, and 2 where asked; 1 and 3 are not, and values above are 4. */
static void forwarded_error(const char *what, const uint8_t *without_error, int derr_explained)
{
    uint8_t event[KOREHYUMO_EVENT_BYTES], sets[7], alone[7], plain_sets[7], plain_duties[7];
    hold(what, korehyumo_event(without_error, sizeof event, plain_sets, plain_duties) == 256 && !all(plain_sets, 7, 0));
    memcpy(event, without_error, sizeof event);
    for (unsigned value = 0; value < 256; value++) {
        int explained = value == 0 || (value == 2 && derr_explained);
        event[FWD_ERR] = (uint8_t)value;
        hold(what, korehyumo_event(event, sizeof event, sets, alone) == (value < 4 ? 256 : KOREHYUMO_RANGE));
        hold(what, explained ? memcmp(sets, plain_sets, 7) == 0 : all(sets, 7, 0));
        hold(what, explained ? memcmp(alone, plain_duties, 7) == 0 : all(alone, 7, 0));
    }
}

/* The last byte of an event: OK and DERR with a forward, 0 without one, and 4 above its range whatever the request is. */
static void forwarded_errors(void)
{
    forwarded_error("with a forward OK and DERR are explained", forwarded, 1);
    forwarded_error("without a forward only 0 is explained", good, 0);
    uint8_t event[KOREHYUMO_EVENT_BYTES] = {3, [FWD_ERR] = 4}, sets[7], alone[7];
    hold("the last byte is 4 before the request is 5", korehyumo_event(event, sizeof event, sets, alone) == KOREHYUMO_RANGE);
}

/* The example of korehyumo_event in the header. */
static void event_example(void)
{
    const uint8_t event[KOREHYUMO_EVENT_BYTES] = {2, 0, 0, 0, 0, 0, 1, 1, 0, 0, 0, 0, 0, 7, 0};
    uint8_t sets[7], alone[7];
    uint64_t result = korehyumo_event(event, sizeof event, sets, alone);
    hold("the event's example is 256", result == 256 && sets[KOREHYUMO_STATE_UC] == (KOREHYUMO_I | KOREHYUMO_SC) && all(alone, 7, 0));
}

/* The example of korehyumo_trace in the header. */
static void trace_example(void)
{
    const uint8_t two[2 * KOREHYUMO_EVENT_BYTES] = {1, 0, 0, 0, 0, 1, 1, 5, 0, 0, 0, 0, 0, 7, 0,
                                                    2, 0, 0, 0, 0, 1, 1, 3, 0, 0, 0, 0, 0, 7, 0};
    fill();
    uint64_t result = korehyumo_trace(two, sizeof two, pairs, 2, table, 1, verdicts, 2, duties, 2, afters, 2);
    hold("the trace's example is 2 * 256", result == 2 * 256 && table[0] == 0);
    hold("its event 0", verdicts[0] == KOREHYUMO_EXPLAINED && duties[0] == KOREHYUMO_DUTY_HOME);
    hold("its states after event 0", afters[0] == (KOREHYUMO_I | KOREHYUMO_SC));
    hold("its event 1", verdicts[1] == KOREHYUMO_UNEXPLAINED && duties[1] == KOREHYUMO_DUTY_NONE && afters[1] == 0);
}

/* How many bytes the longest list has. */
#define LONGEST_LIST (KOREHYUMO_MOST_ANSWERS * KOREHYUMO_ANSWER_BYTES)

/* The room of a question, with more bytes than the longest list has. */
static uint8_t room[LONGEST_LIST + 64];

/* The ten requests. */
static const uint8_t requests[10] = {1, 2, 4, 7, 9, 10, 18, 20, 21, 22};

/* SnpCleanFwd to a line in UDP with Invalid tags: request, RetToSrc, DoNotGoToSD, excl, tag state, state before. */
static const uint8_t partial[6] = {18, 0, 0, 0, 0, KOREHYUMO_STATE_UDP};

/* Its three answers. */
static const uint8_t partial_list[3 * KOREHYUMO_ANSWER_BYTES] = {0, 1, 0, 0, 0, 3, 0, 0, 0, 0,
                                                                 1, 5, 4, 0, 0, 0, 0, 0, 0, 0,
                                                                 1, 5, 4, 0, 0, 2, 0, 0, 0, 0};

/* Asks a question with a room that is filled with BEFORE. */
static uint64_t ask(const uint8_t question[6], size_t len)
{
    const uint8_t *q = question;
    memset(room, BEFORE, sizeof room);
    return korehyumo_answers(q[0], q[1], q[2], q[3], q[4], q[5], room, len);
}

/* A list needs ten bytes for each answer, and writes no others. */
static void rooms_of_a_list(void)
{
    uint64_t accepted = (uint64_t)3 << 32;
    for (size_t len = 0; len < sizeof partial_list; len++)
        hold("too little room is 9 and stays", ask(partial, len) == KOREHYUMO_ROOM && all(room, sizeof room, BEFORE));
    for (size_t len = sizeof partial_list; len <= sizeof room; len++) {
        hold("enough room is accepted", ask(partial, len) == accepted && memcmp(room, partial_list, sizeof partial_list) == 0);
        hold("bytes past the last answer stay", all(room + sizeof partial_list, sizeof room - sizeof partial_list, BEFORE));
    }
}

/* A null room is an empty one: too little for any answer, enough for none. */
static void null_room(void)
{
    const uint8_t dirty_uc[6] = {1, 0, 0, 0, 2, KOREHYUMO_STATE_UC};
    hold("no room is 9", korehyumo_answers(18, 0, 0, 0, 0, KOREHYUMO_STATE_UDP, 0, 0) == KOREHYUMO_ROOM);
    hold("no room for no answers", korehyumo_answers(1, 0, 0, 0, 2, KOREHYUMO_STATE_UC, 0, 0) == 0);
    hold("no answers write nothing", ask(dirty_uc, sizeof room) == 0 && all(room, sizeof room, BEFORE));
    hold("a range before a null room", korehyumo_answers(18, 0, 0, 0, 0, 7, 0, 0) == KOREHYUMO_RANGE);
    hold("a request before a null room", korehyumo_answers(17, 0, 0, 0, 0, 0, 0, 0) == KOREHYUMO_REQUEST);
}

/* A question is refused so with no room and with enough, and nothing is written. */
static void refused_question(const char *what, const uint8_t question[6], uint64_t refusal)
{
    for (size_t len = 0; len <= LONGEST_LIST; len += LONGEST_LIST)
        hold(what, ask(question, len) == refusal && all(room, sizeof room, BEFORE));
}

/* A value above its highest is 4, even with another request, and another request is 5. */
static void refused_questions(void)
{
    const uint8_t highest[6] = {22, 1, 1, 1, 2, 6};
    hold("the highest values are accepted", korehyumo_number(ask(highest, LONGEST_LIST)) == KOREHYUMO_ACCEPTED);
    for (size_t byte = 1; byte < 6; byte++)
        for (unsigned value = highest[byte] + 1u; value < 256; value++) {
            uint8_t question[6] = {22, 0, 0, 0, 0, 0};
            question[byte] = (uint8_t)value;
            refused_question("a value out of range is 4", question, KOREHYUMO_RANGE);
            question[0] = 3;
            refused_question("4 comes before 5", question, KOREHYUMO_RANGE);
        }
    for (unsigned request = 0; request < 256; request++) {
        const uint8_t question[6] = {(uint8_t)request, 0, 0, 0, 0, 0};
        if (memchr(requests, (int)request, sizeof requests) == 0)
            refused_question("another request is 5", question, KOREHYUMO_REQUEST);
    }
}

/* A question in range is accepted with place 0 if its list has just enough room; returns the count. */
static size_t count_answers(const uint8_t question[6])
{
    uint64_t result = ask(question, LONGEST_LIST);
    size_t count = korehyumo_count(result), bytes = count * KOREHYUMO_ANSWER_BYTES;
    hold("a question in range is accepted with place 0", result == (uint64_t)count << 32);
    hold("just enough room is accepted", ask(question, bytes) == result);
    hold("one byte too little is 9", count == 0 || ask(question, bytes - 1) == KOREHYUMO_ROOM);
    return count;
}

/* The most answers are those of the longest list of all questions in range. */
static void longest_list(void)
{
    size_t longest = 0;
    for (unsigned n = 0; n < 10 * 2 * 2 * 2 * 3 * 7; n++) {
        uint8_t tag = (uint8_t)(n / 7 % 3), before = (uint8_t)(n % 7);
        const uint8_t question[6] = {requests[n / 168], n / 84 % 2, n / 42 % 2, n / 21 % 2, tag, before};
        size_t count = count_answers(question);
        longest = count > longest ? count : longest;
    }
    hold("the longest list has 57 answers", longest == 57 && longest == KOREHYUMO_MOST_ANSWERS);
}

/* The example of korehyumo_answers in the header. */
static void answers_example(void)
{
    uint8_t list[KOREHYUMO_MOST_ANSWERS * KOREHYUMO_ANSWER_BYTES];
    uint64_t result = korehyumo_answers(18, 0, 0, 0, 0, KOREHYUMO_STATE_UDP, list, sizeof list);
    hold("the question's example has 3 answers", korehyumo_number(result) == KOREHYUMO_ACCEPTED && korehyumo_count(result) == 3);
    hold("its answers", memcmp(list, partial_list, sizeof partial_list) == 0);
}

/* A result is read by its lower 32 bits, and the count by the upper ones. */
static void results(void)
{
    static const size_t places[] = {0, KOREHYUMO_MOST_EVENTS - 1, KOREHYUMO_MOST_EVENTS, LAST_PAIR};
    for (size_t k = 0; k < sizeof places / sizeof *places; k++) {
        uint64_t result = (uint64_t)places[k] * 256 + 5, more = (uint64_t)7 << 32;
        hold("a result's number", korehyumo_number(result) == 5 && korehyumo_number(result + more) == 5);
        hold("a result's place", korehyumo_place(result) == places[k] && korehyumo_place(result + more) == places[k]);
        hold("a result's count", korehyumo_count(result) == 0 && korehyumo_count(result + more) == 7);
    }
    hold("the highest count", korehyumo_count(UINT64_MAX) == UINT32_MAX);
}

/* The constants of the header agree with each other. */
static void constants(void)
{
    char version[16];
    snprintf(version, sizeof version, "%d.%d.%d", KOREHYUMO_VERSION_MAJOR, KOREHYUMO_VERSION_MINOR, KOREHYUMO_VERSION_PATCH);
    hold("the version as numbers and as text", strcmp(version, KOREHYUMO_VERSION) == 0);
    hold("the states make the set of all", KOREHYUMO_ALL_STATES == (KOREHYUMO_I | KOREHYUMO_UC | KOREHYUMO_UCE | KOREHYUMO_UD
                                                                    | KOREHYUMO_UDP | KOREHYUMO_SC | KOREHYUMO_SD));
    hold("an event has 15 bytes", KOREHYUMO_EVENT_BYTES == 15);
    hold("there are at most 4,096 events", KOREHYUMO_MOST_EVENTS == 4096);
    hold("there are at most 65,536 pairs, one for each 16-bit number", KOREHYUMO_MOST_PAIRS == 65536 && LAST_PAIR == UINT16_MAX);
    hold("an answer is bytes 5 to 14 of an event", KOREHYUMO_ANSWER_BYTES == KOREHYUMO_EVENT_BYTES - 5);
    hold("the longest list has 570 bytes", LONGEST_LIST == 570);
}

int main(void)
{
    wrong_lengths();
    table_lengths();
    high_pairs();
    pairs_alike();
    old_traces();
    last_event();
    last_set();
    longest();
    null_for_none();
    one_event();
    forwarded_errors();
    event_example();
    trace_example();
    rooms_of_a_list();
    null_room();
    refused_questions();
    longest_list();
    answers_example();
    results();
    constants();
    printf("border: %d wrong\n", wrong);
    return wrong != 0;
}
