/* The permitted answers as one would list them without a call for it: every answer that could be given is judged as an event. */

#include <string.h>
#include "../include/korehyumo.h"
#include "answers.h"

uint64_t by_events_answers(ASKED_AND_LENT)
{
    uint8_t event[EVENT_BYTES] = {request, ret_to_src, do_not_go_to_sd, excl, tag}, sets[STATES], duties[STATES];
    size_t length = 0;
    for (const struct candidate *candidate = candidates; candidate < candidates + CANDIDATES; candidate++) {
        unsigned errors = candidate->event.forward == NO_FORWARD ? 1 : ERRORS;
        memcpy(event + CHANNEL_AT, candidate->bytes, ANSWER_BYTES);
        for (unsigned ending = 0; ending < STATES * errors; ending++) {
            unsigned state = ending / errors;
            event[STATE_AFTER_AT] = (uint8_t)state;
            event[FWD_ERR_AT] = (uint8_t)(ending % errors);
            korehyumo_event(event, EVENT_BYTES, sets, duties);
            if (sets[before] & ONLY(state) && room_len - length >= ANSWER_BYTES) {
                memcpy(room + length, event + CHANNEL_AT, ANSWER_BYTES);
                length += ANSWER_BYTES;
            }
        }
    }
    return listed(length);
}
