/* Korehyumo, the snoop judge, for C and for every language that calls C.
 *
 * Two of the three functions below judge AMBA CHI snoop answers, the third lists those that are
 * permitted. Each is proved to return, for every input, and to leave exactly the result and the
 * bytes that its claim states (crates/korehyumo_c/src/lib.rt). This header says the same in words.
 *
 * LINKING. `scripts/built korehyumo` writes target/staticlib/libkorehyumo.a, for x86-64:
 *
 *   cc -Iinclude program.c -Ltarget/staticlib -lkorehyumo
 *
 * The archive needs no other library. It keeps no state between calls and allocates nothing. Several
 * threads may call it at once.
 *
 * EVENTS. An event is one snoop and its answer, in 15 bytes:
 *
 *   byte  field        range        byte  field                   range
 *   0     request      see below    8     FwdState                0 to 7
 *   1     RetToSrc     0 or 1       9     TagOp                   0 to 3
 *   2     DoNotGoToSD  0 or 1       10    RespErr                 0 to 3
 *   3     excl         0 or 1       11    forwarded data present  0 or 1
 *   4     tag state    0 to 3       12    its Resp                0 to 7
 *   5     channel      0 or 1       13    state after             0 to 7
 *   6     opcode       0 to 31      14    fwdErr                  0 to 3
 *   7     Resp         0 to 7
 *
 * Ten requests are judged: SnpShared 1, SnpClean 2, SnpNotSharedDirty 4, SnpUnique 7,
 * SnpCleanInvalid 9, SnpMakeInvalid 10, SnpCleanFwd 18, SnpNotSharedDirtyFwd 20, SnpPreferUnique 21,
 * SnpPreferUniqueFwd 22. A tag state of 3 was not seen. A state after of 7 was not seen.
 * docs/DEFINITION.md has the codes of every field.
 *
 * RespErr is the error field of the answer to Home, and fwdErr that of the forwarded data. Both have
 * the codes OK 0, EXOK 1, DERR 2, NDERR 3. With a forward the rows permit a fwdErr of OK or DERR,
 * beside every RespErr that they permit. Without a forward they permit 0. Other values up to 3 are in
 * range: no row explains them, and none is refused.
 *
 * PAIRS AND SETS. A pair is one cache line in one cache. Its number is the index of its set in the
 * table of sets. No 16-bit number has another meaning. The states that a pair can be in are one byte:
 * bit n is set if state n is possible.
 *
 * RESULTS. Every result reads alike:
 *
 *   lower 32 bits  the place times 256, plus the number of the refusal (0 is accepted)
 *   upper 32 bits  what more the call answers: korehyumo_answers a count, the other two 0
 *
 * korehyumo_number() and korehyumo_place() read the lower half, korehyumo_count() the upper one.
 *
 * BUFFERS. The length after a pointer is the number of its elements. A null pointer with length 0
 * is an empty buffer. Every input that keeps these five rules is answered. Breaking one is undefined
 * behaviour.
 *
 *   - A null pointer has length 0. `sets` and `duties` of korehyumo_event are never null.
 *   - No length is greater than its buffer.
 *   - `pairs` is aligned for uint16_t.
 *   - A buffer that the call may write overlaps no other buffer of the call.
 *   - During the call nobody else writes a buffer, or reads one that the call may write.
 */
#ifndef KOREHYUMO_H
#define KOREHYUMO_H

#include <stddef.h>
#include <stdint.h>

#ifdef __cplusplus
extern "C" {
#endif

/* The version of this interface, as numbers and as text. It is 0.3.0: a table may have 65,536 sets,
 * and in 0.2.0 and 0.1.0 it could have 4,096. An event has 15 bytes and a listed answer ten since
 * 0.2.0; in 0.1.0 they had 14 and nine. */
#define KOREHYUMO_VERSION_MAJOR 0
#define KOREHYUMO_VERSION_MINOR 3
#define KOREHYUMO_VERSION_PATCH 0
#define KOREHYUMO_VERSION "0.3.0"

/* How many bytes an event has. */
#define KOREHYUMO_EVENT_BYTES 15

/* The most events of one call. */
#define KOREHYUMO_MOST_EVENTS 4096

/* The most pairs of one call: the most sets of its table. With so many every 16-bit number is a pair. */
#define KOREHYUMO_MOST_PAIRS 65536

/* How many bytes a listed answer has. */
#define KOREHYUMO_ANSWER_BYTES 10

/* The most answers that a list has. */
#define KOREHYUMO_MOST_ANSWERS 57

/* The set of all seven states: nothing is known of the line. */
#define KOREHYUMO_ALL_STATES 127

/* The states of a line by number: the index of `sets` and `duties`, byte 13 of an event, and the
 * state before of a question. */
enum {
    KOREHYUMO_STATE_I = 0,
    KOREHYUMO_STATE_UC = 1,
    KOREHYUMO_STATE_UCE = 2,
    KOREHYUMO_STATE_UD = 3,
    KOREHYUMO_STATE_UDP = 4,
    KOREHYUMO_STATE_SC = 5,
    KOREHYUMO_STATE_SD = 6,
    KOREHYUMO_STATE_NOT_SEEN = 7 /* in byte 13 only */
};

/* The states of a line by their weight in a set: I or SC is KOREHYUMO_I | KOREHYUMO_SC. */
enum {
    KOREHYUMO_I = 1 << KOREHYUMO_STATE_I,
    KOREHYUMO_UC = 1 << KOREHYUMO_STATE_UC,
    KOREHYUMO_UCE = 1 << KOREHYUMO_STATE_UCE,
    KOREHYUMO_UD = 1 << KOREHYUMO_STATE_UD,
    KOREHYUMO_UDP = 1 << KOREHYUMO_STATE_UDP,
    KOREHYUMO_SC = 1 << KOREHYUMO_STATE_SC,
    KOREHYUMO_SD = 1 << KOREHYUMO_STATE_SD
};

/* The numbers of the refusals; the tables below say when each is given. */
enum {
    KOREHYUMO_ACCEPTED = 0,
    KOREHYUMO_LENGTHS = 1,
    KOREHYUMO_SET = 2,
    KOREHYUMO_PAIR = 3,
    KOREHYUMO_RANGE = 4,
    KOREHYUMO_REQUEST = 5,
    KOREHYUMO_ROOM = 9
};

/* The verdicts on an event, by the set of its pair before it. */
enum {
    KOREHYUMO_EXPLAINED = 0,   /* the rows permit a step from a state of the set */
    KOREHYUMO_UNEXPLAINED = 1, /* the set is not empty, and the rows permit no step from it */
    KOREHYUMO_NOT_JUDGED = 2   /* the set is empty: the pair was lost before */
};

/* The duty to write a Dirty line back: to whom an explained event handed it. */
enum {
    KOREHYUMO_DUTY_NONE = 0,      /* to nobody: no duty was handed over */
    KOREHYUMO_DUTY_HOME = 1,      /* to Home */
    KOREHYUMO_DUTY_REQUESTER = 2, /* to the Requester */
    KOREHYUMO_DUTY_LOST = 3,      /* to nobody: a non-data error, and the line may have been Dirty */
    KOREHYUMO_DUTY_DISCARDED = 4  /* to nobody: SnpMakeInvalid threw away a line that may have been Dirty */
};

/* The number of the refusal in a result; 0 is accepted. */
static inline unsigned korehyumo_number(uint64_t result)
{
    return (unsigned)(result % 256);
}

/* The place in a result. */
static inline size_t korehyumo_place(uint64_t result)
{
    return (size_t)((result & 0xFFFFFFFFu) / 256);
}

/* The count in a result of korehyumo_answers. */
static inline size_t korehyumo_count(uint64_t result)
{
    return (size_t)(result >> 32);
}

/* Judges one event alone, from each of the seven states.
 *
 *   lent, read     event    event_len bytes; null with length 0 is an event of no bytes
 *   lent, written  sets     7 bytes, one for each state before; written even when refused
 *                  duties   7 bytes, one for each state before; written even when refused
 *   result         256 (number 0, place 1) when accepted, else the number of the refusal (place 0)
 *
 *   number                refused when (the first that applies is given)
 *   1 KOREHYUMO_LENGTHS   event_len is not 15
 *   4 KOREHYUMO_RANGE     a byte from 1 to 14 is outside its range
 *   5 KOREHYUMO_REQUEST   the request is not one of the ten
 *
 * Accepted: sets[s] is the set of states that the line can be in after the event if it was in state s
 * before; it is 0 where the rows permit no step from s. duties[s] is the duty, judged from state s
 * alone; it is 0 where sets[s] is 0. Refused: all seven sets and all seven duties are 0.
 *
 * Example: SnpClean answered by SnpResp_SC. A line in UC is in I or SC afterwards.
 *
 *   const uint8_t event[KOREHYUMO_EVENT_BYTES] = {2, 0, 0, 0, 0, 0, 1, 1, 0, 0, 0, 0, 0, 7, 0};
 *   uint8_t sets[7], duties[7];
 *   uint64_t result = korehyumo_event(event, sizeof event, sets, duties);
 *   // result == 256, sets[KOREHYUMO_STATE_UC] == (KOREHYUMO_I | KOREHYUMO_SC), no duty
 */
uint64_t korehyumo_event(const uint8_t *event, size_t event_len,
                         uint8_t sets[7], uint8_t duties[7]);

/* Judges a whole trace, each event on the set of its pair. All lengths count elements.
 *
 *   lent, read     events    15 bytes for each of n events
 *                  pairs     the pair number of each event
 *   lent, written  table     a set for each pair: lent as before the trace, left as after it
 *                  verdicts  a byte for each event; the bytes lent don't matter
 *                  duties    the same
 *                  afters    the same
 *   result         n times 256 (number 0, place n) when accepted, else a refusal and its place
 *
 * Each of the six may be null with length 0. All six null is an accepted trace of no events.
 *
 *   number                refused when (the first that applies is given)            place
 *   1 KOREHYUMO_LENGTHS   events_len is not a multiple of 15, n is above            0
 *                         KOREHYUMO_MOST_EVENTS, table_len is above
 *                         KOREHYUMO_MOST_PAIRS, or pairs_len, verdicts_len,
 *                         duties_len or afters_len is not n
 *   2 KOREHYUMO_SET       a set in the table is above 127                           lowest such pair
 *   Then event by event:
 *   3 KOREHYUMO_PAIR      its pair number is not below table_len                    that event
 *   4 KOREHYUMO_RANGE     one of its bytes from 1 to 14 is outside its range        that event
 *   5 KOREHYUMO_REQUEST   its request is not one of the ten                         that event
 *
 * With a table of KOREHYUMO_MOST_PAIRS sets no event is refused with 3.
 *
 * Accepted: verdicts[k] is event k's verdict, duties[k] its duty (0 unless it is explained), and
 * afters[k] its pair's set after it. table[p] is exactly the set of states in which some permitted
 * history of pair p ends. To judge a longer capture, lend the table again with the next events.
 * Refused: every byte of every buffer is as it was lent.
 *
 * Example: a cache hands its Dirty line to Home, then claims to hold it still.
 *
 *   const uint8_t events[2 * KOREHYUMO_EVENT_BYTES] = {
 *       1, 0, 0, 0, 0, 1, 1, 5, 0, 0, 0, 0, 0, 7, 0,  // SnpRespData_SC_PD
 *       2, 0, 0, 0, 0, 1, 1, 3, 0, 0, 0, 0, 0, 7, 0}; // SnpRespData_SD
 *   const uint16_t pairs[2] = {0, 0};
 *   uint8_t table[1] = {KOREHYUMO_ALL_STATES}, verdicts[2], duties[2], afters[2];
 *   uint64_t result = korehyumo_trace(events, sizeof events, pairs, 2, table, 1,
 *                                     verdicts, 2, duties, 2, afters, 2);
 *   // result == 2 * 256
 *   // event 0: KOREHYUMO_EXPLAINED, KOREHYUMO_DUTY_HOME, KOREHYUMO_I | KOREHYUMO_SC
 *   // event 1: KOREHYUMO_UNEXPLAINED, KOREHYUMO_DUTY_NONE, 0, and table[0] == 0
 */
uint64_t korehyumo_trace(const uint8_t *events, size_t events_len,
                         const uint16_t *pairs, size_t pairs_len,
                         uint8_t *table, size_t table_len,
                         uint8_t *verdicts, size_t verdicts_len,
                         uint8_t *duties, size_t duties_len,
                         uint8_t *afters, size_t afters_len);

/* Lists every answer that the rows permit to a question: a snoop, a tag state and a state before.
 *
 *   given          request, ret_to_src, do_not_go_to_sd, excl, tag
 *                           bytes 0 to 4 of an event, the tag state seen
 *                  before   the state before, by number
 *   lent, written  room     room_len bytes for the list; null with length 0 is an empty room
 *   result         the count in the upper 32 bits (number 0, place 0) when accepted, else the number
 *                  of the refusal (place 0, count 0)
 *
 *   number                refused when (the first that applies is given)
 *   4 KOREHYUMO_RANGE     ret_to_src, do_not_go_to_sd or excl is not 0 or 1, tag is above 2, or
 *                         before is above 6
 *   5 KOREHYUMO_REQUEST   the request is not one of the ten
 *   9 KOREHYUMO_ROOM      10 times the count is above room_len; never with a room of 570 bytes
 *
 * Accepted: the 10 bytes from room[10 * k] on are answer k, bytes 5 to 14 of an event with the state
 * after seen. Each answer stands once, in ascending order byte by byte. An answer is listed exactly
 * when korehyumo_event, for the event of the five bytes given and these ten, has the state after in
 * sets[before]. The list is empty for Dirty tags (2) with a state other than UD and SD; every other
 * list has the answer of NDERR, {0, 1, 0, 0, 0, 3, 0, 0, 0, 0}. Bytes past the last answer are as
 * they were lent. Refused: every byte of the room is as it was lent.
 *
 * Example: what a line in UDP may answer to SnpCleanFwd.
 *
 *   uint8_t room[KOREHYUMO_MOST_ANSWERS * KOREHYUMO_ANSWER_BYTES];
 *   uint64_t result = korehyumo_answers(18, 0, 0, 0, 0, KOREHYUMO_STATE_UDP, room, sizeof room);
 *   // korehyumo_number(result) == KOREHYUMO_ACCEPTED, korehyumo_count(result) == 3
 *   // room[0] to room[9]:   0, 1, 0, 0, 0, 3, 0, 0, 0, 0  SnpResp_I with NDERR
 *   // room[10] to room[19]: 1, 5, 4, 0, 0, 0, 0, 0, 0, 0  SnpRespDataPtl_I_PD
 *   // room[20] to room[29]: 1, 5, 4, 0, 0, 2, 0, 0, 0, 0  SnpRespDataPtl_I_PD with DERR
 */
uint64_t korehyumo_answers(uint8_t request, uint8_t ret_to_src, uint8_t do_not_go_to_sd,
                           uint8_t excl, uint8_t tag, uint8_t before,
                           uint8_t *room, size_t room_len);

#ifdef __cplusplus
}
#endif

#endif
