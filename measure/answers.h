/* What the check and the measurement of lists of answers share: the listers, the questions, and the answers that could be given. */

#ifndef ANSWERS_H
#define ANSWERS_H

#include "judges.h"
#include "wire.h"

/* The most answers of a list. */
#define MOST_ANSWERS KOREHYUMO_MOST_ANSWERS

/* What a lister is asked, and the room that it is lent. */
#define ASKED_AND_LENT \
    uint8_t request, uint8_t ret_to_src, uint8_t do_not_go_to_sd, uint8_t excl, uint8_t tag, uint8_t before, \
    uint8_t *room, size_t room_len

/* A lister of all answers that are permitted. */
typedef uint64_t lister_of_answers(ASKED_AND_LENT);

/* Looks the list up, with the whole meaning of korehyumo_answers. */
lister_of_answers by_table_answers;

/* Has every candidate judged by korehyumo_event; what is asked has to be in range, and the list has to fit the room. */
lister_of_answers by_events_answers;

/* Makes the candidates and the lists of by_table_answers, once, before the first call of either. */
void answers_ready(void);

/* A lister and its name. */
struct lister {
    const char *name;
    lister_of_answers *lister;
};

/* How many listers are compared, and how many of them, which come first, know refusals. */
enum { LISTERS = 3, REFUSING = 2 };

/* The listers, the proved one first; the last does nothing, and measures what stands around a call. */
extern const struct lister listers[LISTERS + 1];

/* An answer that could be given, but for the state after and the error field of the forwarded data: its bytes, and what the rows read. */
struct candidate {
    uint8_t bytes[ANSWER_BYTES];
    struct event event;
};

/* How many candidates there are: each response with its own forward, each tag operation and each error field to Home. */
enum { CANDIDATES = RESPONSES * TAG_OPS * ERRORS };

/* The candidates in ascending order byte by byte. */
extern struct candidate candidates[CANDIDATES];

/* Where the state before stands in a question, after the first bytes of an event, and how many bytes a question has. */
enum { BEFORE_AT = TAG_AT + 1, QUESTION_BYTES };

/* How many values in range each byte of a question has. */
static const uint8_t values[QUESTION_BYTES] = {REQUESTS, 2, 2, 2, TAG_NOT_SEEN, STATES};

/* How many questions are in range. */
enum { QUESTIONS = REQUESTS * 2 * 2 * 2 * TAG_NOT_SEEN * STATES };

/* Writes the question in range that has this number. */
static inline void put_question(uint8_t *question, unsigned number)
{
    for (unsigned at = QUESTION_BYTES; at-- > 0; number /= values[at])
        question[at] = (uint8_t)(number % values[at]);
    question[REQUEST_AT] = request_codes[question[REQUEST_AT]];
}

/* Asks a lister a question. */
static inline uint64_t ask(lister_of_answers *lister, const uint8_t *question, uint8_t *room, size_t room_len)
{
    return lister(question[REQUEST_AT], question[RET_TO_SRC_AT], question[DO_NOT_GO_TO_SD_AT], question[EXCL_AT], question[TAG_AT],
                  question[BEFORE_AT], room, room_len);
}

/* The result that says how many answers a list of so many bytes has. */
static inline uint64_t listed(size_t length)
{
    return (uint64_t)(length / ANSWER_BYTES) << 32;
}

/* How many bytes the list has that a result tells of. */
static inline size_t length_of(uint64_t result)
{
    return (size_t)(result >> 32) * ANSWER_BYTES;
}

/* Compares the listers on every question in range and on many others, and ends the program where they differ. */
void check_listers(void);

#endif
