/* The listers compared byte for byte: on every question in range with several rooms, and on questions that are to be refused. */

#include <stdio.h>
#include <stdlib.h>
#include <string.h>
#include "../include/korehyumo.h"
#include "answers.h"
#include "draws.h"

/* The largest room that is lent. */
#define LARGEST_ROOM 600u

/* How many bytes stand before and after the room at least, and room for all of them; a room may start at any place of sixteen. */
enum { GUARD = 32, AREA = GUARD + 16 + LARGEST_ROOM + GUARD };

/* What a lister gave back: its result, and the room with the bytes around it. */
struct left {
    uint64_t result;
    uint8_t area[AREA];
};

/* The question at hand. */
static uint8_t question[QUESTION_BYTES];

/* How many bytes of room are lent for its list. */
static size_t room_len;

/* How many lists were asked for so far, and how often each refusal came. */
static unsigned long asked, refusals[REFUSALS];

/* Tells what was asked, for a message. */
static void tell_question(void)
{
    fprintf(stderr, "check: question");
    for (unsigned at = 0; at < QUESTION_BYTES; at++)
        fprintf(stderr, " %u", question[at]);
    fprintf(stderr, " with a room of %zu bytes: ", room_len);
}

/* Where the room starts in the area. */
static size_t start_of_room(void)
{
    return GUARD + asked % 16;
}

/* The area as it is before a call: bytes that are in no answer. */
static void lay_out(uint8_t *area)
{
    for (size_t at = 0; at < AREA; at++)
        area[at] = (uint8_t)(160 + at % 64);
}

/* Asks a lister; every other room of no bytes is null. */
static void call(const struct lister *lister, struct left *left)
{
    lay_out(left->area);
    uint8_t *room = room_len == 0 && asked % 2 ? 0 : left->area + start_of_room();
    left->result = ask(lister->lister, question, room, room_len);
}

/* Ends the program where two areas differ. */
static void same_area(const char *one_name, const uint8_t *one, const char *other_name, const uint8_t *other)
{
    size_t at = 0;
    if (memcmp(one, other, AREA) == 0)
        return;
    while (one[at] == other[at])
        at++;
    tell_question();
    fprintf(stderr, "byte %td of the room: %s has %u and %s %u\n", (ptrdiff_t)at - (ptrdiff_t)start_of_room(), one_name, one[at],
            other_name, other[at]);
    exit(1);
}

/* Ends the program where two results differ. */
static void same_result(const struct lister *one, uint64_t one_result, const struct lister *other, uint64_t other_result)
{
    if (one_result == other_result)
        return;
    tell_question();
    fprintf(stderr, "the result of %s is %#llx and that of %s %#llx\n", one->name, (unsigned long long)one_result, other->name,
            (unsigned long long)other_result);
    exit(1);
}

/* Ends the program where a lister touched bytes past its last answer or around the room. */
static void kept(const struct lister *lister, const struct left *left)
{
    uint8_t before[AREA];
    size_t length = length_of(left->result);
    lay_out(before);
    if (length <= room_len)
        memcpy(before + start_of_room(), left->area + start_of_room(), length);
    same_area("what came", before, lister->name, left->area);
}

/* Compares the first so many listers on the question at hand with so many bytes of room, and gives the length of the list. */
static size_t compare(size_t bytes, unsigned many)
{
    static struct left left[LISTERS];
    room_len = bytes;
    for (unsigned n = 0; n < many; n++) {
        call(&listers[n], &left[n]);
        same_result(&listers[0], left[0].result, &listers[n], left[n].result);
        kept(&listers[n], &left[n]);
        same_area(listers[0].name, left[0].area, listers[n].name, left[n].area);
    }
    asked++;
    refusals[left[0].result % 256]++;
    return length_of(left[0].result);
}

/* Every question in range, with a large room, with none, with one that is just enough, with a byte less, and with a byte less an answer. */
static void in_range(void)
{
    for (unsigned n = 0; n < QUESTIONS; n++) {
        put_question(question, n);
        size_t length = compare(LARGEST_ROOM, LISTERS);
        compare(0, REFUSING);
        compare(0, REFUSING);
        compare(length, REFUSING);
        if (length > 0) {
            compare(length - 1, REFUSING);
            compare(length - length / ANSWER_BYTES, REFUSING);
        }
    }
}

/* Ends the program where some row permits an event, or where the call for one event alone takes another length. */
static void not_permitted(const uint8_t *event)
{
    uint8_t sets[STATES], duties[STATES];
    uint64_t less = korehyumo_event(event, EVENT_BYTES - 1, sets, duties), result = korehyumo_event(event, EVENT_BYTES, sets, duties);
    unsigned permitted = 0;
    for (unsigned state = 0; state < STATES; state++)
        permitted |= sets[state];
    if (less == result_of(WRONG_LENGTH, 0) && result == result_of(ACCEPTED, 1) && permitted == 0)
        return;
    fprintf(stderr, "check: event");
    for (unsigned at = 0; at < EVENT_BYTES; at++)
        fprintf(stderr, " %u", event[at]);
    fprintf(stderr, ": the result is %#llx, with a byte less %#llx, and the sets after have %u\n", (unsigned long long)result,
            (unsigned long long)less, permitted);
    exit(1);
}

/* Whether by_events tries an answer: one with its own forward, and with an error field of that only where there is one. */
static int is_tried(const struct event *answer)
{
    return forward_codes[answer->forward] == response_codes[answer->response][3]
        && (answer->fwd_err == OK || answer->forward != NO_FORWARD);
}

/* Every response with every forward, tag operation and value of both error fields, those left out that by_events tries. */
static void not_tried(void)
{
    for (unsigned n = 0; n < QUESTIONS / STATES * RESPONSES * FORWARDS * TAG_OPS * ERRORS * ERRORS; n++) {
        unsigned rest = n / (TAG_OPS * ERRORS * ERRORS);
        struct event answer = {
            .tag_op = n & 3, .resp_err = n >> 2 & 3, .fwd_err = n >> 4 & 3, .forward = (unsigned char)(rest % FORWARDS),
            .response = (unsigned char)(rest / FORWARDS % RESPONSES),
        };
        uint8_t event[EVENT_BYTES];
        if (is_tried(&answer))
            continue;
        put_question(question, rest / FORWARDS / RESPONSES * STATES);
        memcpy(event, question, CHANNEL_AT);
        put_answer(event + CHANNEL_AT, &answer, STATE_NOT_SEEN);
        not_permitted(event);
    }
}

/* Whether a value is in range for a byte of a question. */
static int fits(unsigned at, unsigned value)
{
    return at == REQUEST_AT ? request_of(value) != REQUESTS : value < values[at];
}

/* Every question in range with each value out of range for each byte, every other time with no room. */
static void one_out_of_range(void)
{
    for (unsigned n = 0; n < QUESTIONS * QUESTION_BYTES * 256; n++) {
        unsigned number = n / 256 / QUESTION_BYTES, at = n / 256 % QUESTION_BYTES, value = n % 256;
        if (fits(at, value))
            continue;
        put_question(question, number);
        question[at] = (uint8_t)value;
        compare((number + value) % 2 ? LARGEST_ROOM : 0, REFUSING);
    }
}

/* Questions of which half of the bytes may have any value, with any room. */
static void several_out_of_range(void)
{
    source = 1;
    for (unsigned n = 0; n < 200000; n++) {
        put_question(question, below(QUESTIONS));
        for (unsigned at = 0; at < QUESTION_BYTES; at++)
            if (comes(1, 2))
                question[at] = (uint8_t)below(comes(1, 2) ? 256 : values[at] + 2u);
        compare(below(LARGEST_ROOM + 1), REFUSING);
    }
}

void check_listers(void)
{
    in_range();
    not_tried();
    one_out_of_range();
    several_out_of_range();
    printf("check: proved and by_table agree on %lu calls, by_events with them on %d; refusals 0, 4, 5 and 9: %lu %lu %lu %lu\n", asked,
           QUESTIONS, refusals[ACCEPTED], refusals[OUT_OF_RANGE], refusals[OTHER_REQUEST], refusals[NO_ROOM]);
}
