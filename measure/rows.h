/* The words and rows of the printed tables, and what they say of an event. */

#ifndef ROWS_H
#define ROWS_H

#include "judges.h"

/* The line states in table order, and one that was not seen. */
enum { I, UC, UCE, UD, UDP, SC, SD, STATES, STATE_NOT_SEEN = STATES };

/* The set that holds one state alone. */
#define ONLY(state) (1u << (state))

/* The set of all seven states. */
#define ALL_STATES 127u

/* The states in which a cache owes somebody its data. */
#define DIRTY_STATES (ONLY(UD) | ONLY(UDP) | ONLY(SD))

/* The tag states, and one that was not seen. */
enum { TAG_INVALID, TAG_CLEAN, TAG_DIRTY, TAG_NOT_SEEN, TAGS };

/* The tag operations. */
enum { OP_INVALID, OP_TRANSFER, OP_UPDATE, OP_MATCH, TAG_OPS };

/* What an error field says, the one to Home and the one of the forwarded data alike. */
enum { OK, EXOK, DERR, NDERR, ERRORS };

/* What a request is to the tables; an exclusive sequence matters to SnpPreferUniqueFwd alone. */
enum { PLAIN, FORWARDING, PREFERRING, PREFERRING_EXCL, UNIQUE, CLEAN_INVALID, MAKE_INVALID, KINDS };

/* The tables that rows stand in: four printed ones, the bench copy's three, and the one row of NDERR as a table of its own. */
enum { B4_46, B4_57, B4_59, B4_60, BENCH_UNIQUE, BENCH_CLEAN_INVALID, BENCH_MAKE_INVALID, NDERR_ROW };

/* The requests: name, code, kind. */
#define REQUEST_LIST(each) \
    each(SnpShared,            1,  PLAIN) \
    each(SnpClean,             2,  PLAIN) \
    each(SnpNotSharedDirty,    4,  PLAIN) \
    each(SnpUnique,            7,  UNIQUE) \
    each(SnpCleanInvalid,      9,  CLEAN_INVALID) \
    each(SnpMakeInvalid,       10, MAKE_INVALID) \
    each(SnpCleanFwd,          18, FORWARDING) \
    each(SnpNotSharedDirtyFwd, 20, FORWARDING) \
    each(SnpPreferUnique,      21, PLAIN) \
    each(SnpPreferUniqueFwd,   22, PREFERRING)

/* The data forwarded: name, Resp. */
#define FORWARD_LIST(each) \
    each(CompData_SC,    1) \
    each(CompData_UC,    2) \
    each(CompData_UD_PD, 6) \
    each(CompData_SD_PD, 7)

/* The answers to Home: name, channel (1 with data), opcode, Resp, FwdState, who takes the duty over as far as its name tells. */
#define RESPONSE_LIST(each) \
    each(SnpResp_I,                  0, 1, 0, 0, DUTY_NONE) \
    each(SnpResp_SC,                 0, 1, 1, 0, DUTY_NONE) \
    each(SnpRespData_I,              1, 1, 0, 0, DUTY_NONE) \
    each(SnpRespData_SC,             1, 1, 1, 0, DUTY_NONE) \
    each(SnpRespData_SD,             1, 1, 3, 0, DUTY_NONE) \
    each(SnpRespData_I_PD,           1, 1, 4, 0, DUTY_HOME) \
    each(SnpRespData_SC_PD,          1, 1, 5, 0, DUTY_HOME) \
    each(SnpRespDataPtl_I_PD,        1, 5, 4, 0, DUTY_HOME) \
    each(SnpResp_I_Fwded_SC,         0, 9, 0, 1, DUTY_NONE) \
    each(SnpResp_SC_Fwded_SC,        0, 9, 1, 1, DUTY_NONE) \
    each(SnpResp_SD_Fwded_SC,        0, 9, 3, 1, DUTY_NONE) \
    each(SnpResp_I_Fwded_SD_PD,      0, 9, 0, 7, DUTY_REQUESTER) \
    each(SnpResp_SC_Fwded_SD_PD,     0, 9, 1, 7, DUTY_REQUESTER) \
    each(SnpResp_I_Fwded_UC,         0, 9, 0, 2, DUTY_NONE) \
    each(SnpResp_I_Fwded_UD_PD,      0, 9, 0, 6, DUTY_REQUESTER) \
    each(SnpRespData_I_Fwded_SC,     1, 6, 0, 1, DUTY_NONE) \
    each(SnpRespData_SC_Fwded_SC,    1, 6, 1, 1, DUTY_NONE) \
    each(SnpRespData_SD_Fwded_SC,    1, 6, 3, 1, DUTY_NONE) \
    each(SnpRespData_I_Fwded_SD_PD,  1, 6, 0, 7, DUTY_REQUESTER) \
    each(SnpRespData_SC_Fwded_SD_PD, 1, 6, 1, 7, DUTY_REQUESTER) \
    each(SnpRespData_I_PD_Fwded_SC,  1, 6, 4, 1, DUTY_HOME) \
    each(SnpRespData_SC_PD_Fwded_SC, 1, 6, 5, 1, DUTY_HOME)

/* The first column of a list. */
#define NAME(name, ...) name,
enum { REQUEST_LIST(NAME) REQUESTS };
enum { NO_FORWARD, FORWARD_LIST(NAME) FORWARDS };
enum { RESPONSE_LIST(NAME) RESPONSES };

/* The RetToSrc of a row that takes either. */
#define X 2

/* A row of a table, one state before each. */
struct row {
    unsigned char table;
    unsigned char before;
    unsigned char ret_to_src;
    unsigned char forward;
    unsigned char response;
    unsigned char states_after;
    unsigned char not_with_do_not_go_to_sd;
};

/* The states after of a row that lets the cache keep SC or drop it. */
#define SC_or_I (ONLY(SC) | ONLY(I))

/* All the rows: 17 of B4.46, 27 of B4.57, 13 of B4.59, 9 of B4.60, 23 of the bench copy, and NDERR's own for each state. */
static const struct row rows[] = {
    {B4_46, I,   X, NO_FORWARD,     SnpResp_I,                  ONLY(I),  0},
    {B4_46, UC,  X, NO_FORWARD,     SnpResp_SC,                 SC_or_I,  0},
    {B4_46, UC,  X, NO_FORWARD,     SnpRespData_SC,             SC_or_I,  0},
    {B4_46, UC,  X, NO_FORWARD,     SnpResp_I,                  ONLY(I),  0},
    {B4_46, UC,  X, NO_FORWARD,     SnpRespData_I,              ONLY(I),  0},
    {B4_46, UCE, X, NO_FORWARD,     SnpResp_I,                  ONLY(I),  0},
    {B4_46, UD,  X, NO_FORWARD,     SnpRespData_SD,             ONLY(SD), 1},
    {B4_46, UD,  X, NO_FORWARD,     SnpRespData_SC_PD,          SC_or_I,  0},
    {B4_46, UD,  X, NO_FORWARD,     SnpRespData_I_PD,           ONLY(I),  0},
    {B4_46, UDP, X, NO_FORWARD,     SnpRespDataPtl_I_PD,        ONLY(I),  0},
    {B4_46, SC,  0, NO_FORWARD,     SnpResp_SC,                 SC_or_I,  0},
    {B4_46, SC,  0, NO_FORWARD,     SnpResp_I,                  ONLY(I),  0},
    {B4_46, SC,  1, NO_FORWARD,     SnpRespData_SC,             SC_or_I,  0},
    {B4_46, SC,  1, NO_FORWARD,     SnpRespData_I,              ONLY(I),  0},
    {B4_46, SD,  X, NO_FORWARD,     SnpRespData_SD,             ONLY(SD), 1},
    {B4_46, SD,  X, NO_FORWARD,     SnpRespData_SC_PD,          SC_or_I,  0},
    {B4_46, SD,  X, NO_FORWARD,     SnpRespData_I_PD,           ONLY(I),  0},

    {B4_57, I,   X, NO_FORWARD,     SnpResp_I,                  ONLY(I),  0},
    {B4_57, UC,  0, CompData_SC,    SnpResp_SC_Fwded_SC,        SC_or_I,  0},
    {B4_57, UC,  1, CompData_SC,    SnpRespData_SC_Fwded_SC,    SC_or_I,  0},
    {B4_57, UC,  0, CompData_SC,    SnpResp_I_Fwded_SC,         ONLY(I),  0},
    {B4_57, UC,  1, CompData_SC,    SnpRespData_I_Fwded_SC,     ONLY(I),  0},
    {B4_57, UCE, X, NO_FORWARD,     SnpResp_I,                  ONLY(I),  0},
    {B4_57, UD,  0, CompData_SC,    SnpResp_SD_Fwded_SC,        ONLY(SD), 1},
    {B4_57, UD,  1, CompData_SC,    SnpRespData_SD_Fwded_SC,    ONLY(SD), 1},
    {B4_57, UD,  0, CompData_SD_PD, SnpResp_SC_Fwded_SD_PD,     SC_or_I,  0},
    {B4_57, UD,  1, CompData_SD_PD, SnpRespData_SC_Fwded_SD_PD, SC_or_I,  0},
    {B4_57, UD,  0, CompData_SD_PD, SnpResp_I_Fwded_SD_PD,      ONLY(I),  0},
    {B4_57, UD,  1, CompData_SD_PD, SnpRespData_I_Fwded_SD_PD,  ONLY(I),  0},
    {B4_57, UD,  X, CompData_SC,    SnpRespData_SC_PD_Fwded_SC, SC_or_I,  0},
    {B4_57, UD,  X, CompData_SC,    SnpRespData_I_PD_Fwded_SC,  ONLY(I),  0},
    {B4_57, UDP, X, NO_FORWARD,     SnpRespDataPtl_I_PD,        ONLY(I),  0},
    {B4_57, SC,  0, CompData_SC,    SnpResp_SC_Fwded_SC,        SC_or_I,  0},
    {B4_57, SC,  1, CompData_SC,    SnpRespData_SC_Fwded_SC,    SC_or_I,  0},
    {B4_57, SC,  0, CompData_SC,    SnpResp_I_Fwded_SC,         ONLY(I),  0},
    {B4_57, SC,  1, CompData_SC,    SnpRespData_I_Fwded_SC,     ONLY(I),  0},
    {B4_57, SD,  0, CompData_SC,    SnpResp_SD_Fwded_SC,        ONLY(SD), 1},
    {B4_57, SD,  1, CompData_SC,    SnpRespData_SD_Fwded_SC,    ONLY(SD), 1},
    {B4_57, SD,  0, CompData_SD_PD, SnpResp_SC_Fwded_SD_PD,     SC_or_I,  0},
    {B4_57, SD,  1, CompData_SD_PD, SnpRespData_SC_Fwded_SD_PD, SC_or_I,  0},
    {B4_57, SD,  0, CompData_SD_PD, SnpResp_I_Fwded_SD_PD,      ONLY(I),  0},
    {B4_57, SD,  1, CompData_SD_PD, SnpRespData_I_Fwded_SD_PD,  ONLY(I),  0},
    {B4_57, SD,  X, CompData_SC,    SnpRespData_SC_PD_Fwded_SC, SC_or_I,  0},
    {B4_57, SD,  X, CompData_SC,    SnpRespData_I_PD_Fwded_SC,  ONLY(I),  0},

    {B4_59, I,   X, NO_FORWARD,     SnpResp_I,                  ONLY(I),  0},
    {B4_59, UC,  0, CompData_SC,    SnpResp_SC_Fwded_SC,        ONLY(SC), 0},
    {B4_59, UC,  1, CompData_SC,    SnpRespData_SC_Fwded_SC,    ONLY(SC), 0},
    {B4_59, UCE, X, NO_FORWARD,     SnpResp_I,                  ONLY(I),  0},
    {B4_59, UD,  0, CompData_SC,    SnpResp_SD_Fwded_SC,        ONLY(SD), 1},
    {B4_59, UD,  1, CompData_SC,    SnpRespData_SD_Fwded_SC,    ONLY(SD), 1},
    {B4_59, UD,  X, CompData_SC,    SnpRespData_SC_PD_Fwded_SC, ONLY(SC), 0},
    {B4_59, UDP, X, NO_FORWARD,     SnpRespDataPtl_I_PD,        ONLY(I),  0},
    {B4_59, SC,  0, CompData_SC,    SnpResp_SC_Fwded_SC,        ONLY(SC), 0},
    {B4_59, SC,  1, CompData_SC,    SnpRespData_SC_Fwded_SC,    ONLY(SC), 0},
    {B4_59, SD,  0, CompData_SC,    SnpResp_SD_Fwded_SC,        ONLY(SD), 1},
    {B4_59, SD,  1, CompData_SC,    SnpRespData_SD_Fwded_SC,    ONLY(SD), 1},
    {B4_59, SD,  X, CompData_SC,    SnpRespData_SC_PD_Fwded_SC, ONLY(SC), 0},

    {B4_60, I,   X, NO_FORWARD,     SnpResp_I,                  ONLY(I),  0},
    {B4_60, UC,  X, CompData_UC,    SnpResp_I_Fwded_UC,         ONLY(I),  0},
    {B4_60, UCE, X, NO_FORWARD,     SnpResp_I,                  ONLY(I),  0},
    {B4_60, UD,  X, CompData_UD_PD, SnpResp_I_Fwded_UD_PD,      ONLY(I),  0},
    {B4_60, UD,  X, NO_FORWARD,     SnpRespData_I_PD,           ONLY(I),  0},
    {B4_60, UDP, X, NO_FORWARD,     SnpRespDataPtl_I_PD,        ONLY(I),  0},
    {B4_60, SC,  X, CompData_UC,    SnpResp_I_Fwded_UC,         ONLY(I),  0},
    {B4_60, SD,  X, CompData_UD_PD, SnpResp_I_Fwded_UD_PD,      ONLY(I),  0},
    {B4_60, SD,  X, NO_FORWARD,     SnpRespData_I_PD,           ONLY(I),  0},

    /* Bench copy: SnpUnique. */
    {BENCH_UNIQUE, I,   X, NO_FORWARD, SnpResp_I,           ONLY(I), 0},
    {BENCH_UNIQUE, UC,  X, NO_FORWARD, SnpResp_I,           ONLY(I), 0},
    {BENCH_UNIQUE, UC,  X, NO_FORWARD, SnpRespData_I,       ONLY(I), 0},
    {BENCH_UNIQUE, UCE, X, NO_FORWARD, SnpResp_I,           ONLY(I), 0},
    {BENCH_UNIQUE, UD,  X, NO_FORWARD, SnpRespData_I_PD,    ONLY(I), 0},
    {BENCH_UNIQUE, UDP, X, NO_FORWARD, SnpRespDataPtl_I_PD, ONLY(I), 0},
    {BENCH_UNIQUE, SC,  0, NO_FORWARD, SnpResp_I,           ONLY(I), 0},
    {BENCH_UNIQUE, SC,  1, NO_FORWARD, SnpRespData_I,       ONLY(I), 0},
    {BENCH_UNIQUE, SD,  X, NO_FORWARD, SnpRespData_I_PD,    ONLY(I), 0},

    /* Bench copy: SnpCleanInvalid. */
    {BENCH_CLEAN_INVALID, I,   X, NO_FORWARD, SnpResp_I,           ONLY(I), 0},
    {BENCH_CLEAN_INVALID, UC,  X, NO_FORWARD, SnpResp_I,           ONLY(I), 0},
    {BENCH_CLEAN_INVALID, UCE, X, NO_FORWARD, SnpResp_I,           ONLY(I), 0},
    {BENCH_CLEAN_INVALID, UD,  X, NO_FORWARD, SnpRespData_I_PD,    ONLY(I), 0},
    {BENCH_CLEAN_INVALID, UDP, X, NO_FORWARD, SnpRespDataPtl_I_PD, ONLY(I), 0},
    {BENCH_CLEAN_INVALID, SC,  X, NO_FORWARD, SnpResp_I,           ONLY(I), 0},
    {BENCH_CLEAN_INVALID, SD,  X, NO_FORWARD, SnpRespData_I_PD,    ONLY(I), 0},

    /* Bench copy: SnpMakeInvalid. */
    {BENCH_MAKE_INVALID, I,   X, NO_FORWARD, SnpResp_I, ONLY(I), 0},
    {BENCH_MAKE_INVALID, UC,  X, NO_FORWARD, SnpResp_I, ONLY(I), 0},
    {BENCH_MAKE_INVALID, UCE, X, NO_FORWARD, SnpResp_I, ONLY(I), 0},
    {BENCH_MAKE_INVALID, UD,  X, NO_FORWARD, SnpResp_I, ONLY(I), 0},
    {BENCH_MAKE_INVALID, UDP, X, NO_FORWARD, SnpResp_I, ONLY(I), 0},
    {BENCH_MAKE_INVALID, SC,  X, NO_FORWARD, SnpResp_I, ONLY(I), 0},
    {BENCH_MAKE_INVALID, SD,  X, NO_FORWARD, SnpResp_I, ONLY(I), 0},

    {NDERR_ROW, I,   X, NO_FORWARD, SnpResp_I,                  ONLY(I),  0},
    {NDERR_ROW, UC,  X, NO_FORWARD, SnpResp_I,                  ONLY(I),  0},
    {NDERR_ROW, UCE, X, NO_FORWARD, SnpResp_I,                  ONLY(I),  0},
    {NDERR_ROW, UD,  X, NO_FORWARD, SnpResp_I,                  ONLY(I),  0},
    {NDERR_ROW, UDP, X, NO_FORWARD, SnpResp_I,                  ONLY(I),  0},
    {NDERR_ROW, SC,  X, NO_FORWARD, SnpResp_I,                  ONLY(I),  0},
    {NDERR_ROW, SD,  X, NO_FORWARD, SnpResp_I,                  ONLY(I),  0},
};

/* How many rows there are. */
#define ROWS (sizeof rows / sizeof rows[0])

/* What is known of a snoop and its answer, the pair and the state after apart. */
struct event {
    unsigned char kind;
    unsigned char ret_to_src;
    unsigned char do_not_go_to_sd;
    unsigned char tag;
    unsigned char response;
    unsigned char tag_op;
    unsigned char resp_err;
    unsigned char forward;
    unsigned char fwd_err;
};

/* What a request is to the tables. */
static inline unsigned kind_of(unsigned request, unsigned excl)
{
#define KIND_CASE(name, code, kind) case name: return kind == PREFERRING && excl ? PREFERRING_EXCL : kind;
    switch (request) {
    REQUEST_LIST(KIND_CASE)
    default: return PLAIN;
    }
}

/* The kinds of request that each table has rows for, a bit each. */
static const unsigned char kinds_of[] = {
    [B4_46] = 1 << PLAIN,
    [B4_57] = 1 << FORWARDING,
    [B4_59] = 1 << PREFERRING | 1 << PREFERRING_EXCL,
    [B4_60] = 1 << PREFERRING,
    [BENCH_UNIQUE] = 1 << UNIQUE,
    [BENCH_CLEAN_INVALID] = 1 << CLEAN_INVALID,
    [BENCH_MAKE_INVALID] = 1 << MAKE_INVALID,
    [NDERR_ROW] = (1 << KINDS) - 1,
};

/* Whether a table has rows for a kind of request. */
static inline int in_use(unsigned table, unsigned kind)
{
    return kinds_of[table] >> kind & 1;
}

/* Whether an answer brings data to Home. */
static inline int has_data(unsigned response)
{
#define DATA_BIT(name, channel, ...) | (unsigned)channel << name
    return (0 RESPONSE_LIST(DATA_BIT)) >> response & 1;
}

/* The duty of an event that a row permits: lost with NDERR, else discarded by SnpMakeInvalid, else as the answer's name tells. */
static inline unsigned duty_of(const struct event *event)
{
#define DUTY_CASE(name, channel, opcode, resp, fwd_state, duty) case name: return duty;
    if (event->resp_err == NDERR)
        return DUTY_LOST;
    if (event->kind == MAKE_INVALID)
        return DUTY_DISCARDED;
    switch (event->response) {
    RESPONSE_LIST(DUTY_CASE)
    default: return DUTY_NONE;
    }
}

/* The states before from which a duty is told: the Dirty ones where nobody takes it over. */
static inline unsigned duty_from(unsigned duty)
{
    return duty == DUTY_LOST || duty == DUTY_DISCARDED ? DIRTY_STATES : ALL_STATES;
}

/* The states that what was seen of the state after allows. */
static inline unsigned allowed_by(unsigned state_after)
{
    return state_after == STATE_NOT_SEEN ? ALL_STATES : ONLY(state_after);
}

/* Whether a row takes an error field to Home. */
static inline int takes_resp_err(const struct row *row, unsigned resp_err)
{
    if (row->table == NDERR_ROW)
        return resp_err == NDERR;
    return resp_err == OK || (resp_err == DERR && has_data(row->response));
}

/* Whether the rows take an error field of the forwarded data, whatever the one to Home is; where nothing is forwarded, it is 0. */
static inline int takes_fwd_err(unsigned forward, unsigned fwd_err)
{
    return fwd_err == OK || (fwd_err == DERR && forward != NO_FORWARD);
}

/* Whether a row takes a tag operation under a tag state that is one of the three; for B4.46 and the bench copy that is the house rule. */
static inline int takes_tag_op(const struct row *row, unsigned tag, unsigned tag_op)
{
    if (tag == TAG_DIRTY) {
        if (row->before != UD && row->before != SD)
            return 0;
        if (row->forward == CompData_SD_PD || row->forward == CompData_UD_PD)
            return 0;
    }
    if (!has_data(row->response))
        return tag_op == OP_INVALID;
    if (tag == TAG_DIRTY)
        return tag_op == (row->states_after == ONLY(SD) ? OP_TRANSFER : OP_UPDATE);
    return tag_op == OP_INVALID || (tag_op == OP_TRANSFER && row->before != UDP);
}

/* Whether a row permits an event as a step from its state before. */
static inline int permits(const struct row *row, const struct event *event)
{
    if (row->response != event->response || row->forward != event->forward)
        return 0;
    if (!in_use(row->table, event->kind) || !takes_resp_err(row, event->resp_err) || !takes_fwd_err(row->forward, event->fwd_err))
        return 0;
    if (row->ret_to_src != X && row->ret_to_src != event->ret_to_src)
        return 0;
    if (row->not_with_do_not_go_to_sd && event->do_not_go_to_sd)
        return 0;
    if (event->tag != TAG_NOT_SEEN)
        return takes_tag_op(row, event->tag, event->tag_op);
    return takes_tag_op(row, TAG_INVALID, event->tag_op) || takes_tag_op(row, TAG_CLEAN, event->tag_op)
        || takes_tag_op(row, TAG_DIRTY, event->tag_op);
}

/* The states in which the rows leave a line that was in this state. */
static inline unsigned left_from(const struct event *event, unsigned state)
{
    unsigned after = 0;
    for (const struct row *row = rows; row < rows + ROWS; row++)
        if (row->before == state && permits(row, event))
            after |= row->states_after;
    return after;
}

/* The states in which the rows leave a line that was in one of these. */
static inline unsigned left_by_rows(const struct event *event, unsigned set)
{
    unsigned after = 0;
    for (unsigned state = 0; state < STATES; state++)
        if (set & ONLY(state))
            after |= left_from(event, state);
    return after;
}

/* What the rows say of an event on a set, where these states after are allowed. */
static inline struct finding finding_by_rows(const struct event *event, unsigned set, unsigned allowed)
{
    unsigned duty = duty_of(event);
    return finding_of(set, left_by_rows(event, set) & allowed, duty, duty_from(duty));
}

#endif
