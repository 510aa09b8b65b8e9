/* The permitted answers listed by a program written for speed: it looks the list up among those made from the rows, and copies it. */

#include <string.h>
#include "answers.h"
#include "lookup.h"

/* A list: the result that goes with it, and its bytes. */
struct list {
    uint64_t result;
    size_t length;
    uint8_t bytes[MOST_ANSWERS * ANSWER_BYTES];
};

/* A context is what a list depends on, as a number: the lowest bit of each part above the state before, and room for all contexts. */
enum { TAG_BIT = 3, DO_NOT_GO_TO_SD_BIT = 5, RET_TO_SRC_BIT = 6, KIND_BIT = 7, CONTEXTS = (KINDS + 1) << KIND_BIT };

/* Room for the lists. */
enum { LISTS = 64 };

struct candidate candidates[CANDIDATES];

/* What excl and the request add to a context; 0 for a request that is not one of the ten. */
static uint16_t kind_part[2][256];

/* The list of each context. */
static const struct list *list_of[CONTEXTS];

/* The lists, each once. */
static struct list lists[LISTS];

/* How many lists there are so far. */
static unsigned list_count;

uint64_t by_table_answers(ASKED_AND_LENT)
{
    if ((ret_to_src | do_not_go_to_sd | excl) > 1 || tag >= TAG_NOT_SEEN || before >= STATES)
        return result_of(OUT_OF_RANGE, 0);
    size_t kind = kind_part[excl][request];
    if (kind == 0)
        return result_of(OTHER_REQUEST, 0);
    size_t flags = (size_t)ret_to_src << RET_TO_SRC_BIT | (size_t)do_not_go_to_sd << DO_NOT_GO_TO_SD_BIT;
    const struct list *list = list_of[kind + flags + ((size_t)tag << TAG_BIT) + before];
    if (list->length > room_len)
        return result_of(NO_ROOM, 0);
    if (list->length > 0)
        memcpy(room, list->bytes, list->length);
    return list->result;
}

/* The order of two candidates. */
static int order(const void *one, const void *other)
{
    return memcmp(((const struct candidate *)one)->bytes, ((const struct candidate *)other)->bytes, ANSWER_BYTES);
}

/* Lists the candidates in their order. */
static void put_candidates(void)
{
    for (unsigned n = 0; n < CANDIDATES; n++) {
        unsigned response = n / (TAG_OPS * ERRORS), fwd_state = response_codes[response][3];
        candidates[n].event = (struct event){
            .response = (unsigned char)response, .tag_op = n / ERRORS % TAG_OPS, .resp_err = n % ERRORS,
            .forward = (unsigned char)forward_of(fwd_state != 0, fwd_state),
        };
        put_answer(candidates[n].bytes, &candidates[n].event, 0);
    }
    qsort(candidates, CANDIDATES, sizeof candidates[0], order);
}

/* Fills in what excl and each of the ten requests add to a context. */
static void put_kind_parts(void)
{
    for (unsigned n = 0; n < 2 * REQUESTS; n++)
        kind_part[n % 2][request_codes[n / 2]] = (uint16_t)((kind_of(n / 2, n % 2) + 1) << KIND_BIT);
}

/* The tag state of a context. */
static unsigned tag_of(unsigned context)
{
    return context >> TAG_BIT & 3;
}

/* The states in which the rows leave a line that gives an answer in a context. */
static unsigned left_in(unsigned context, const struct candidate *answer)
{
    struct event event = answer->event;
    event.kind = (unsigned char)((context >> KIND_BIT) - 1);
    event.ret_to_src = context >> RET_TO_SRC_BIT & 1;
    event.do_not_go_to_sd = context >> DO_NOT_GO_TO_SD_BIT & 1;
    event.tag = (unsigned char)tag_of(context);
    return left_from(&event, context & 7);
}

/* Adds an answer to a list, once for each of these states after and each error field that its forwarded data may have. */
static void add_answer(struct list *list, const struct candidate *answer, unsigned states_after)
{
    struct event event = answer->event;
    for (unsigned ending = 0; ending < STATES * ERRORS; ending++) {
        unsigned state = ending / ERRORS;
        event.fwd_err = ending % ERRORS;
        if (!(states_after & ONLY(state)) || !takes_fwd_err(event.forward, event.fwd_err))
            continue;
        must(list->length < sizeof list->bytes, "a list is too long");
        put_answer(list->bytes + list->length, &event, state);
        list->length += ANSWER_BYTES;
    }
}

/* Keeps a list where it is new, and gives where it is kept. */
static const struct list *kept(const struct list *list)
{
    unsigned n = 0;
    while (n < list_count && memcmp(lists[n].bytes, list->bytes, sizeof list->bytes) != 0)
        n++;
    must(n < LISTS, "too many lists");
    lists[n] = *list;
    list_count += n == list_count;
    return &lists[n];
}

/* Makes the list of each context that has its tag state seen, the longest of which has as many answers as a list can have. */
static void put_lists(void)
{
    size_t longest = 0;
    for (unsigned context = 1 << KIND_BIT; context < CONTEXTS; context++) {
        struct list list = {0};
        for (unsigned n = 0; tag_of(context) != TAG_NOT_SEEN && n < CANDIDATES; n++)
            add_answer(&list, &candidates[n], left_in(context, &candidates[n]));
        list.result = listed(list.length);
        list_of[context] = kept(&list);
        longest = list.length > longest ? list.length : longest;
    }
    must(longest == sizeof lists[0].bytes, "no list has the most answers");
}

void answers_ready(void)
{
    put_candidates();
    put_kind_parts();
    put_lists();
}
