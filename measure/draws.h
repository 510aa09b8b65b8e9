/* Events drawn along histories of their pairs, so that most are explained and every name occurs. */

#ifndef DRAWS_H
#define DRAWS_H

#include <stdint.h>
#include "rows.h"

/* One event of a sheet or a trace. */
struct drawn {
    unsigned pair;
    unsigned request;
    unsigned excl;
    unsigned state_after;
    struct event event;
};

/* The state of the random generator. */
static uint64_t source;

/* The state of another one, for the error fields of forwarded data, so that all else is drawn as it would be without them. */
static uint64_t error_source;

/* Makes both generators start from a seed. */
static inline void start_draws(uint64_t seed)
{
    source = seed;
    error_source = ~seed;
}

/* The next random number of a generator. */
static inline uint64_t draw_from(uint64_t *state)
{
    uint64_t mixed = *state += 0x9e3779b97f4a7c15u;
    mixed = (mixed ^ mixed >> 30) * 0xbf58476d1ce4e5b9u;
    mixed = (mixed ^ mixed >> 27) * 0x94d049bb133111ebu;
    return mixed ^ mixed >> 31;
}

/* The next random number. */
static inline uint64_t draw(void)
{
    return draw_from(&source);
}

/* A random number below a limit. */
static inline unsigned below(unsigned limit)
{
    return (unsigned)((draw() >> 32) * limit >> 32);
}

/* True so often out of so many times. */
static inline int comes(uint64_t often, uint64_t out_of)
{
    return draw() % out_of < often;
}

/* One state of a set that is not empty. */
static inline unsigned state_of(unsigned set)
{
    unsigned state;
    do
        state = below(STATES);
    while (!(set & ONLY(state)));
    return state;
}

/* Draws a request and its flags. */
static inline void draw_request(struct drawn *drawn)
{
    drawn->request = below(REQUESTS);
    drawn->excl = below(2);
    drawn->event.kind = (unsigned char)kind_of(drawn->request, drawn->excl);
    drawn->event.ret_to_src = (unsigned char)below(2);
    drawn->event.do_not_go_to_sd = (unsigned char)below(2);
}

/* Draws any event at all but for the error field of its forwarded data, so that each name of each column is as likely as another. */
static inline struct drawn draw_anything(void)
{
    struct drawn drawn = {0};
    draw_request(&drawn);
    drawn.event.tag = (unsigned char)below(TAGS);
    drawn.event.response = (unsigned char)below(RESPONSES);
    drawn.event.tag_op = (unsigned char)below(TAG_OPS);
    drawn.event.resp_err = (unsigned char)below(ERRORS);
    drawn.event.forward = (unsigned char)below(FORWARDS);
    drawn.state_after = below(STATES + 1);
    return drawn;
}

/* Tries to draw an event that some row permits from a state and that can leave one of the states wanted. */
static inline int try_permitted(struct drawn *drawn, unsigned state, unsigned wanted)
{
    static const unsigned char likely_tags[] = {
        TAG_INVALID, TAG_INVALID, TAG_INVALID, TAG_INVALID, TAG_CLEAN, TAG_DIRTY, TAG_NOT_SEEN, TAG_NOT_SEEN,
    };
    struct event fitting[ROWS * TAG_OPS];
    unsigned char after[ROWS * TAG_OPS];
    unsigned count = 0;
    draw_request(drawn);
    drawn->event.tag = likely_tags[below(sizeof likely_tags)];
    drawn->event.resp_err = (unsigned char)(comes(13, 16) ? OK : comes(2, 3) ? DERR : NDERR);
    for (const struct row *row = rows; row < rows + ROWS; row++) {
        if (row->before != state || !(row->states_after & wanted))
            continue;
        drawn->event.response = row->response;
        drawn->event.forward = row->forward;
        for (unsigned tag_op = 0; tag_op < TAG_OPS; tag_op++) {
            drawn->event.tag_op = (unsigned char)tag_op;
            if (permits(row, &drawn->event)) {
                fitting[count] = drawn->event;
                after[count++] = (unsigned char)(row->states_after & wanted);
            }
        }
    }
    if (count == 0)
        return 0;
    unsigned chosen = below(count);
    drawn->event = fitting[chosen];
    drawn->state_after = below(2) ? STATE_NOT_SEEN : state_of(after[chosen]);
    return 1;
}

/* Draws an event that some row permits from a state and that can leave one of the states wanted. */
static inline struct drawn draw_permitted(unsigned state, unsigned wanted)
{
    struct drawn drawn = {0};
    while (!try_permitted(&drawn, state, wanted))
        ;
    return drawn;
}

/* Draws an event that some row permits from a state of a set, and that keeps the copy unless the pair may lose it. */
static inline struct drawn draw_lively(unsigned set, int may_leave)
{
    static const unsigned char kept[STATES] = {
        [I] = ONLY(I), [UC] = ONLY(SC), [UCE] = ONLY(I), [UD] = ONLY(SC) | ONLY(SD), [UDP] = ONLY(I), [SC] = ONLY(SC),
        [SD] = ONLY(SD),
    };
    unsigned lively = set & (ONLY(UC) | ONLY(UD) | ONLY(SC) | ONLY(SD));
    if (may_leave || !lively)
        return draw_permitted(state_of(set), ALL_STATES);
    unsigned state = state_of(lively);
    return draw_permitted(state, kept[state]);
}

/* Draws the error field of the forwarded data: DERR for a quarter of it, else OK, so that each row takes it. */
static inline unsigned char draw_fwd_err(unsigned forward)
{
    return forward != NO_FORWARD && draw_from(&error_source) % 4 == 0 ? DERR : OK;
}

/* About how many events each pair gets. */
static inline unsigned long events_of_a_pair(unsigned long events, unsigned pairs)
{
    return events / pairs + 4;
}

/* Draws the next event over so many pairs, and moves their sets as a judge would. */
static inline struct drawn draw_next(unsigned char *sets, unsigned pairs, unsigned long events_a_pair)
{
    unsigned pair, set;
    do {
        pair = below(pairs);
        set = sets[pair];
    } while ((set == 0 || set == ONLY(I)) && !comes(1, 8));

    /* A pair can't go back up, so over all its events it may leave its state about twice. */
    struct drawn drawn;
    if (set == 0)
        drawn = comes(1, 8) ? draw_anything() : draw_permitted(below(STATES), ALL_STATES);
    else if (comes(1, 4 * events_a_pair))
        drawn = draw_anything();
    else
        drawn = draw_lively(set, comes(2, events_a_pair));
    drawn.pair = pair;
    drawn.event.fwd_err = draw_fwd_err(drawn.event.forward);
    sets[pair] = (unsigned char)finding_by_rows(&drawn.event, set, allowed_by(drawn.state_after)).after_set;
    return drawn;
}

#endif
