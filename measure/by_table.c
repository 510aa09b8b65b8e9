/* A whole trace judged by a program written for speed: events are tested all together, then looked up in tables made from the rows. */

#include <emmintrin.h>
#include <string.h>
#include "judges.h"
#include "lookup.h"
#include "rows.h"
#include "wire.h"

/* What the first six bytes of an event are multiplied by for the highest bits to tell what was asked; found by trial, like the next. */
#define ASKED_FACTOR 0x0b50800020010000u

/* How many of the highest bits that takes. */
#define ASKED_BITS 9

/* What the last eight bytes are multiplied by for the highest bits to tell the rest of the answer, whatever the first of them is. */
#define REST_FACTOR 0x0000080002016002u

/* How many of the highest bits that takes. */
#define REST_BITS 16

/* Room for what can be asked with the channel of the answer, and for the pairs of opcode and Resp. */
enum { ASKED = KINDS * 32, MESSAGES = 16 };

/* Room for the kinds of rest, for what can be seen of the state after, and for both together. */
enum { RESTS = 32, SEEN = 4, ENDINGS = RESTS * SEEN };

/* Room for lines of effects, and for the effects. */
enum { LINES = 64, EFFECTS = 32 };

/* All that is looked up, in one place so that one address leads to it. */
static struct {
    /* What was asked and the channel, by the highest bits of the first product, as an offset into line. */
    uint16_t asked[1 << ASKED_BITS];

    /* The message without its channel, by opcode and Resp times 256, 0 where no row has it. */
    uint8_t message[8 * 256];

    /* The offset of the line of effects by what was asked and the message. */
    uint16_t line[ASKED * MESSAGES];

    /* The place in a line, by the highest bits of the second product, 0 where no row permits anything. */
    uint8_t ending[1 << REST_BITS];

    /* The effects by line and place in it. */
    uint8_t effect[LINES * ENDINGS];

    /* The set after, the verdict and the duty in a byte each, by the set before and the effect. */
    uint32_t finding[(ALL_STATES + 1) * EFFECTS];
} at;

/* The index in at.asked by the first eight bytes, of which the last two don't matter: the factor ends in 16 zeros. */
static inline size_t asked_index(uint64_t front)
{
    return (size_t)(front * ASKED_FACTOR >> (64 - ASKED_BITS));
}

/* The index in at.ending by the last eight bytes, of which the first, Resp, doesn't matter: with each, the same place is found. */
static inline size_t rest_index(uint64_t back)
{
    return (size_t)(back * REST_FACTOR >> (64 - REST_BITS));
}

/* The bits that an event in range can have, and those that the request after it can have: any. */
static _Alignas(16) uint8_t in_range[EVENT_BYTES + 1];

_Static_assert(sizeof in_range == sizeof(__m128i), "an event and the request after it are tested at a time");

/* Which requests are none of the ten. */
static uint8_t unknown[256];

/* Fills in what events are tested with. */
static void put_tested_with(void)
{
    memcpy(in_range, largest, EVENT_BYTES);
    in_range[EVENT_BYTES] = largest[REQUEST_AT];
    for (unsigned code = 0; code < 256; code++)
        unknown[code] = request_of(code) == REQUESTS;
}

/* Whether so many events are all good, where one more follows: sixteen bytes are an event and the request after it. */
static int are_good(const uint8_t *events, const uint16_t *pairs, size_t count, size_t table_len)
{
    __m128i bits = _mm_setzero_si128();
    uint16_t highest = 0;
    uint8_t refused = 0;
    for (size_t k = 0; k < count; k++)
        highest = pairs[k] > highest ? pairs[k] : highest;
#pragma GCC unroll 8
    for (size_t k = 0; k < count; k++, events += EVENT_BYTES) {
        bits = _mm_or_si128(bits, _mm_loadu_si128((const __m128i *)events));
        refused |= unknown[events[REQUEST_AT]];
    }
    __m128i outside = _mm_andnot_si128(*(const __m128i *)in_range, bits);
    return highest < table_len && !refused && _mm_movemask_epi8(_mm_cmpeq_epi8(outside, _mm_setzero_si128())) == 0xffff;
}

/* The result of testing the events: all but the last together, and one after another where that shows a bad one. */
static uint64_t test_events(const uint8_t *events, const uint16_t *pairs, size_t n, size_t table_len)
{
    size_t good = n > 0 && are_good(events, pairs, n - 1, table_len) ? n - 1 : 0;
    return test_from(good, events, pairs, n, table_len);
}

/* The refusal of the lowest set above 127, or 0. */
static uint64_t test_table(const uint8_t *table, size_t table_len)
{
    uint8_t all = 0;
    for (size_t pair = 0; pair < table_len; pair++)
        all |= table[pair];
    if (all <= ALL_STATES)
        return 0;
    size_t lowest = 0;
    while (table[lowest] <= ALL_STATES)
        lowest++;
    return result_of(NO_SET, lowest);
}

/* Judges good events one after another; apart from its caller, whose values would take registers from it. */
__attribute__((noinline))
static void judge_events(const uint8_t *restrict events, const uint16_t *restrict pairs, size_t n, uint8_t *restrict table,
                         uint8_t *restrict verdicts, uint8_t *restrict duties, uint8_t *restrict afters)
{
    for (size_t k = 0; k < n; k++, events += EVENT_BYTES) {
        uint64_t front = load(events), back = load(events + EVENT_BYTES - 8);
        size_t line = at.line[(size_t)at.asked[asked_index(front)] + at.message[load_two(events + OPCODE_AT)]];
        size_t effect = at.effect[line + at.ending[rest_index(back)]];
        uint8_t *set = &table[pairs[k]];
        uint32_t finding = at.finding[(size_t)*set * EFFECTS + effect];
        *set = (uint8_t)finding;
        afters[k] = (uint8_t)finding;
        verdicts[k] = (uint8_t)(finding >> 8);
        duties[k] = (uint8_t)(finding >> 16);
    }
}

uint64_t by_table_trace(LENT)
{
    size_t n = events_len / EVENT_BYTES;
    if (!lengths_fit(events_len, pairs_len, table_len, verdicts_len, duties_len, afters_len))
        return result_of(WRONG_LENGTH, 0);
    uint64_t result = test_table(table, table_len);
    if (result == 0)
        result = test_events(events, pairs, n, table_len);
    if (result % 256 == ACCEPTED)
        judge_events(events, pairs, n, table, verdicts, duties, afters);
    return result;
}

/* The rest of an answer: forward, tag operation, error field to Home; that of the forwarded data, where it is taken, changes nothing. */
struct rest {
    unsigned forward;
    unsigned tag_op;
    unsigned resp_err;
};

/* The kinds of rest that some row permits, from 1. */
static struct rest rests[RESTS];

/* The states after that some row leaves, each once and not seen first. */
static unsigned seen[SEEN] = {STATE_NOT_SEEN};

/* The opcodes and Resps that rows have, from 1. */
static uint8_t messages[MESSAGES][2];

/* The effects, of which the first is nothing. */
static struct effect effects[EFFECTS];

/* How many of each there are so far. */
static unsigned rest_count = 1, seen_count = 1, message_count = 1, effect_count = 1, line_count;

/* The number of what was asked among all that can be, where Clean tags permit what Invalid ones do. */
static unsigned asked_number(unsigned request, unsigned flags, unsigned tag, unsigned channel)
{
    unsigned kind = kind_of(request, flags >> 2);
    return (kind * 4 + (flags & 3)) * 8 + (tag == TAG_CLEAN ? TAG_INVALID : tag) * 2 + channel;
}

/* The event of a thing asked, an answer and its rest. */
static struct event event_of(unsigned asked, unsigned response, const struct rest *rest)
{
    return (struct event){
        .kind = (unsigned char)(asked >> 5), .ret_to_src = asked >> 3 & 1, .do_not_go_to_sd = asked >> 4 & 1, .tag = asked >> 1 & 3,
        .response = (unsigned char)response, .tag_op = (unsigned char)rest->tag_op, .resp_err = (unsigned char)rest->resp_err,
        .forward = (unsigned char)rest->forward,
    };
}

/* Fills in the offset of what was asked for each request, flags, tag state and channel. */
static void put_asked(void)
{
    memset(at.asked, 255, sizeof at.asked);
    for (unsigned n = 0; n < REQUESTS * 64; n++) {
        unsigned request = n / 64, flags = n & 7, tag = n >> 3 & 3, channel = n >> 5 & 1;
        uint8_t bytes[8] = {request_codes[request], flags & 1, flags >> 1 & 1, (uint8_t)(flags >> 2), (uint8_t)tag, (uint8_t)channel};
        uint16_t *asked = &at.asked[asked_index(load(bytes))];
        unsigned number = asked_number(request, flags, tag, channel) * MESSAGES;
        must(*asked == 0xffff || *asked == number, "two things asked have one index");
        *asked = (uint16_t)number;
    }
}

/* Fills in the messages of all answers. */
static void put_messages(void)
{
    for (unsigned response = 0; response < RESPONSES; response++) {
        const uint8_t *codes = response_codes[response];
        uint8_t *message = &at.message[codes[1] + 256 * codes[2]];
        if (*message)
            continue;
        must(message_count < MESSAGES, "too many messages");
        messages[message_count][0] = codes[1];
        messages[message_count][1] = codes[2];
        *message = (uint8_t)message_count++;
    }
}

/* Whether some row permits the rest of an answer, whatever else there is. */
static int some_row_permits(const struct rest *rest)
{
    for (const struct row *row = rows; row < rows + ROWS; row++)
        for (unsigned asked = 0; asked < ASKED; asked++) {
            struct event event = event_of(asked, row->response, rest);
            if (permits(row, &event))
                return 1;
        }
    return 0;
}

/* Lists the kinds of rest that some row permits. */
static void put_rests(void)
{
    for (unsigned n = 0; n < FORWARDS * TAG_OPS * ERRORS; n++) {
        struct rest rest = {n / (TAG_OPS * ERRORS), n / ERRORS % TAG_OPS, n % ERRORS};
        if (!some_row_permits(&rest))
            continue;
        must(rest_count < RESTS, "too many kinds of rest");
        rests[rest_count++] = rest;
    }
}

/* Lists the states after that some row leaves. */
static void put_seen(void)
{
    unsigned left = 0;
    for (const struct row *row = rows; row < rows + ROWS; row++)
        left |= row->states_after;
    for (unsigned state = 0; state < STATES; state++)
        if (left & ONLY(state)) {
            must(seen_count < SEEN, "too many states after");
            seen[seen_count++] = state;
        }
}

/* The place in a line of the last bytes of an event, 0 where no row permits them. */
static unsigned ending_of(const uint8_t *event)
{
    unsigned forward = forward_of(event[FORWARDED_AT], event[FORWARDED_RESP_AT]), rest = 1, state = 0;
    if (forward == FORWARDS || event[FWD_STATE_AT] != forward_codes[forward] || !takes_fwd_err(forward, event[FWD_ERR_AT]))
        return 0;
    while (rest < rest_count
           && (forward != rests[rest].forward || event[TAG_OP_AT] != rests[rest].tag_op || event[RESP_ERR_AT] != rests[rest].resp_err))
        rest++;
    while (state < seen_count && event[STATE_AFTER_AT] != seen[state])
        state++;
    return rest < rest_count && state < seen_count ? rest * SEEN + state : 0;
}

/* Fills in the places in a line for all that the last eight bytes can be. */
static void put_endings(void)
{
    static uint8_t filled[1 << REST_BITS];
    for (unsigned n = 0; n < 1u << 19; n++) {
        uint8_t event[EVENT_BYTES] = {
            [RESP_AT] = n & 7, [FWD_STATE_AT] = n >> 3 & 7, [TAG_OP_AT] = n >> 6 & 3, [RESP_ERR_AT] = n >> 8 & 3,
            [FORWARDED_AT] = n >> 10 & 1, [FORWARDED_RESP_AT] = n >> 11 & 7, [STATE_AFTER_AT] = n >> 14 & 7,
            [FWD_ERR_AT] = (uint8_t)(n >> 17),
        };
        unsigned ending = ending_of(event);
        size_t index = rest_index(load(event + EVENT_BYTES - 8));
        must(!filled[index] || at.ending[index] == ending, "two endings have one index");
        filled[index] = 1;
        at.ending[index] = (uint8_t)ending;
    }
}

/* The number of an effect, which is listed where it is new. */
static unsigned effect_number(struct effect effect)
{
    if (effect.from == 0 || effect.after == 0)
        return 0;
    unsigned n = 1;
    while (n < effect_count && memcmp(&effects[n], &effect, sizeof effect) != 0)
        n++;
    must(n < EFFECTS, "too many effects");
    effects[n] = effect;
    effect_count += n == effect_count;
    return n;
}

/* Fills in one rest of a line of effects: the effect for each state after that can be seen. */
static void put_effects(uint8_t *four, unsigned asked, unsigned message, const struct rest *rest)
{
    unsigned response = response_of(asked & 1, messages[message][0], messages[message][1], forward_codes[rest->forward]);
    struct event event = event_of(asked, response, rest);
    struct effect any = {0};
    for (const struct row *row = rows; row < rows + ROWS; row++)
        if (permits(row, &event))
            add_row(&any, row, &event);
    for (unsigned n = 0; n < seen_count; n++) {
        struct effect effect = any;
        effect.after &= (uint8_t)allowed_by(seen[n]);
        four[n] = (uint8_t)effect_number(effect);
    }
}

/* Fills in the line of effects for each thing asked and each message; equal lines are kept once. */
static void put_lines(void)
{
    for (unsigned place = 0; place < ASKED * MESSAGES; place++) {
        uint8_t line[ENDINGS] = {0};
        unsigned message = place % MESSAGES, n = 0;
        for (unsigned rest = 1; message && message < message_count && rest < rest_count; rest++)
            put_effects(line + rest * SEEN, place / MESSAGES, message, &rests[rest]);
        while (n < line_count && memcmp(at.effect + n * ENDINGS, line, ENDINGS) != 0)
            n++;
        must(n < LINES, "too many lines of effects");
        memcpy(at.effect + n * ENDINGS, line, ENDINGS);
        line_count += n == line_count;
        at.line[place] = (uint16_t)(n * ENDINGS);
    }
}

/* Fills in what each effect makes of each set. */
static void put_findings(void)
{
    for (unsigned n = 0; n < (ALL_STATES + 1) * EFFECTS; n++) {
        struct finding finding = finding_by_effect(&effects[n % EFFECTS], n / EFFECTS, ALL_STATES);
        at.finding[n] = finding.after_set | finding.verdict << 8 | finding.duty << 16;
    }
}

void judges_ready(void)
{
    if (line_count > 0)
        return;
    put_tested_with();
    put_asked();
    put_messages();
    put_rests();
    put_seen();
    put_endings();
    put_lines();
    put_findings();
}
