/* A whole trace judged as one would write it first: it walks the rows for every event and every state of its pair's set. */

#include "judges.h"
#include "rows.h"
#include "wire.h"

/* Reads an event whose bytes are all in their ranges. */
static struct event read_event(const uint8_t *bytes)
{
    return (struct event){
        .kind = (unsigned char)kind_of(request_of(bytes[REQUEST_AT]), bytes[EXCL_AT]),
        .ret_to_src = bytes[RET_TO_SRC_AT],
        .do_not_go_to_sd = bytes[DO_NOT_GO_TO_SD_AT],
        .tag = bytes[TAG_AT],
        .response = (unsigned char)response_of(bytes[CHANNEL_AT], bytes[OPCODE_AT], bytes[RESP_AT], bytes[FWD_STATE_AT]),
        .tag_op = bytes[TAG_OP_AT],
        .resp_err = bytes[RESP_ERR_AT],
        .forward = (unsigned char)forward_of(bytes[FORWARDED_AT], bytes[FORWARDED_RESP_AT]),
        .fwd_err = bytes[FWD_ERR_AT],
    };
}

uint64_t by_rows_trace(LENT)
{
    size_t n = events_len / EVENT_BYTES;
    if (!lengths_fit(events_len, pairs_len, table_len, verdicts_len, duties_len, afters_len))
        return result_of(WRONG_LENGTH, 0);
    for (size_t pair = 0; pair < table_len; pair++)
        if (table[pair] > ALL_STATES)
            return result_of(NO_SET, pair);
    uint64_t tested = test_from(0, events, pairs, n, table_len);
    if (tested % 256 != ACCEPTED)
        return tested;
    for (size_t k = 0; k < n; k++) {
        const uint8_t *bytes = events + k * EVENT_BYTES;
        struct event event = read_event(bytes);
        struct finding finding = finding_by_rows(&event, table[pairs[k]], allowed_by(bytes[STATE_AFTER_AT]));
        table[pairs[k]] = afters[k] = (uint8_t)finding.after_set;
        verdicts[k] = (uint8_t)finding.verdict;
        duties[k] = (uint8_t)finding.duty;
    }
    return tested;
}
