/* The bytes of an event, and the published codes as bytes and back. */

#ifndef WIRE_H
#define WIRE_H

#include <string.h>
#include "load.h"
#include "rows.h"

/* Where each field stands in an event. */
enum {
    REQUEST_AT, RET_TO_SRC_AT, DO_NOT_GO_TO_SD_AT, EXCL_AT, TAG_AT, CHANNEL_AT, OPCODE_AT, RESP_AT, FWD_STATE_AT, TAG_OP_AT,
    RESP_ERR_AT, FORWARDED_AT, FORWARDED_RESP_AT, STATE_AFTER_AT, FWD_ERR_AT, FIELDS
};

/* How many bytes an answer has: those of an event from its channel on. */
#define ANSWER_BYTES KOREHYUMO_ANSWER_BYTES

_Static_assert(FIELDS == EVENT_BYTES && FIELDS - CHANNEL_AT == ANSWER_BYTES, "the fields make up an event and an answer");

/* The largest value in range of each field, always one less than a power of two; a request may be any byte. */
static const uint8_t largest[EVENT_BYTES] = {255, 1, 1, 1, 3, 1, 31, 7, 7, 3, 3, 1, 7, 7, 3};

/* The codes of the requests. */
#define REQUEST_CODE(name, code, kind) code,
static const uint8_t request_codes[REQUESTS] = {REQUEST_LIST(REQUEST_CODE)};

/* Channel, opcode, Resp and FwdState of the answers to Home. */
#define RESPONSE_CODES(name, channel, opcode, resp, fwd_state, duty) {channel, opcode, resp, fwd_state},
static const uint8_t response_codes[RESPONSES][4] = {RESPONSE_LIST(RESPONSE_CODES)};

/* The Resp of the data forwarded, 0 where there is none; FwdState has the same code. */
#define FORWARD_CODE(name, resp) resp,
static const uint8_t forward_codes[FORWARDS] = {0, FORWARD_LIST(FORWARD_CODE)};

/* The request of a code, or REQUESTS where it is none of the ten. */
static inline unsigned request_of(unsigned code)
{
#define REQUEST_CASE(name, code, kind) case code: return name;
    switch (code) {
    REQUEST_LIST(REQUEST_CASE)
    default: return REQUESTS;
    }
}

/* The answer to Home of its channel, opcode, Resp and FwdState, or RESPONSES where no row has it. */
static inline unsigned response_of(unsigned channel, unsigned opcode, unsigned resp, unsigned fwd_state)
{
#define ANSWER(channel, opcode, resp, fwd_state) ((channel) * 2048 + (opcode) * 64 + (resp) * 8 + (fwd_state))
#define RESPONSE_CASE(name, channel, opcode, resp, fwd_state, duty) case ANSWER(channel, opcode, resp, fwd_state): return name;
    switch (ANSWER(channel, opcode, resp, fwd_state)) {
    RESPONSE_LIST(RESPONSE_CASE)
    default: return RESPONSES;
    }
}

/* The data forwarded by whether it is there and its Resp, or FORWARDS where no row has it. */
static inline unsigned forward_of(unsigned there, unsigned resp)
{
#define FORWARD_CASE(name, resp) case resp: return name;
    if (!there)
        return resp == 0 ? NO_FORWARD : FORWARDS;
    switch (resp) {
    FORWARD_LIST(FORWARD_CASE)
    default: return FORWARDS;
    }
}

/* Writes the answer of an event as its bytes. */
static inline void put_answer(uint8_t *bytes, const struct event *event, unsigned state_after)
{
    const uint8_t *codes = response_codes[event->response];
    const uint8_t answer[ANSWER_BYTES] = {
        codes[0], codes[1], codes[2], codes[3], event->tag_op, event->resp_err, event->forward != NO_FORWARD,
        forward_codes[event->forward], (uint8_t)state_after, event->fwd_err,
    };
    memcpy(bytes, answer, sizeof answer);
}

/* The refusal of one event, if any. */
static inline unsigned fault_of(const uint8_t *event, size_t pair, size_t table_len)
{
    const unsigned back = EVENT_BYTES - 8;
    if (pair >= table_len)
        return NO_PAIR;
    if ((load(event) & ~load(largest)) | (load(event + back) & ~load(largest + back)))
        return OUT_OF_RANGE;
    return request_of(event[REQUEST_AT]) == REQUESTS ? OTHER_REQUEST : ACCEPTED;
}

/* The result of testing the events from the k-th on, one after another. */
static inline uint64_t test_from(size_t k, const uint8_t *events, const uint16_t *pairs, size_t n, size_t table_len)
{
    for (; k < n; k++) {
        unsigned fault = fault_of(events + k * EVENT_BYTES, pairs[k], table_len);
        if (fault)
            return result_of(fault, k);
    }
    return result_of(ACCEPTED, n);
}

#endif
