/* Holds the lists of answers to the judge of one event, for every question: an answer is listed exactly when the judge permits it.
 * Tried are all answers with a known message and forwarded data as FwdState says, without an error on that data; all that forward
 * with a known message, Resp and FwdState, with an error on that data; and all that differ from a listed one in at most a single
 * byte. */

#include <stdio.h>
#include <stdlib.h>
#include <string.h>
#include "korehyumo.h"

/* How many choices there are of the first five bytes of an event, the tag state being seen. */
#define SNOOPS (10 * 2 * 2 * 2 * 3)

/* How many bytes those are. */
#define SNOOP_BYTES 5

/* How many states a line has. */
#define STATES 7

/* How many questions there are. */
#define QUESTIONS (SNOOPS * STATES)

/* How many answers have a known message and forwarded data as FwdState says, without an error on that data. */
#define KNOWN (5 * 8 * 8 * 4 * 4 * STATES)

/* How many answers forward with a known message, Resp and FwdState, and have an error on the forwarded data. */
#define IN_ERROR (2 * 5 * 4 * 4 * 4 * STATES * 3)

/* How many answers are put for one that is listed: one for each value of each byte. */
#define NEAR (2 + 32 + 8 + 8 + 4 + 4 + 2 + 8 + STATES + 4)

/* An answer: bytes 5 to 14 of an event, the state after being seen. */
struct answer {
    uint8_t bytes[KOREHYUMO_ANSWER_BYTES];
};

/* The list of each question, and how long it is. */
static struct answer lists[QUESTIONS][KOREHYUMO_MOST_ANSWERS];
static size_t counts[QUESTIONS];

/* The answers of all lists, and the answers that are tried. */
static struct answer rows[QUESTIONS * KOREHYUMO_MOST_ANSWERS];
static struct answer tried[KNOWN + IN_ERROR + QUESTIONS * KOREHYUMO_MOST_ANSWERS * NEAR];

/* How many answers are listed, how many events were judged, and how many checks failed. */
static unsigned long listed, judged, wrong;

/* Takes one of so many values off the number of a choice. */
static uint8_t take(size_t *choice, unsigned values)
{
    uint8_t value = (uint8_t)(*choice % values);
    *choice /= values;
    return value;
}

/* Puts the first five bytes of an event, by the number of their choice. */
static void put_snoop(uint8_t *bytes, size_t choice)
{
    static const uint8_t requests[10] = {1, 2, 4, 7, 9, 10, 18, 20, 21, 22};
    bytes[4] = take(&choice, 3);
    for (size_t flag = 1; flag <= 3; flag++)
        bytes[flag] = take(&choice, 2);
    bytes[0] = requests[choice];
}

/* The order of two answers, byte by byte. */
static int order(const void *one, const void *other)
{
    return memcmp(one, other, KOREHYUMO_ANSWER_BYTES);
}

/* Asks a question and keeps its list, which must ascend. */
static void ask(size_t question)
{
    uint8_t q[SNOOP_BYTES], before = (uint8_t)(question % STATES);
    struct answer *list = lists[question];
    put_snoop(q, question / STATES);
    uint64_t result = korehyumo_answers(q[0], q[1], q[2], q[3], q[4], before, list->bytes, sizeof lists[question]);
    size_t count = korehyumo_count(result);
    if (korehyumo_number(result) != KOREHYUMO_ACCEPTED || korehyumo_place(result) != 0 || count > KOREHYUMO_MOST_ANSWERS) {
        wrong++;
        return;
    }
    for (size_t k = 1; k < count; k++)
        wrong += order(&list[k - 1], &list[k]) >= 0;
    counts[question] = count;
    listed += count;
}

/* Sorts answers, leaves each once, and returns how many are left. */
static size_t each_once(struct answer *answers, size_t count)
{
    size_t left = 0;
    qsort(answers, count, sizeof *answers, order);
    for (size_t k = 0; k < count; k++)
        if (left == 0 || order(&answers[left - 1], &answers[k]) != 0)
            answers[left++] = answers[k];
    return left;
}

/* Gathers the answers of all lists, each once, and returns how many there are. */
static size_t gather_rows(void)
{
    size_t count = 0;
    for (size_t question = 0; question < QUESTIONS; question++) {
        memcpy(rows + count, lists[question], counts[question] * sizeof *rows);
        count += counts[question];
    }
    return each_once(rows, count);
}

/* Puts the KNOWN answers. */
static void put_known(struct answer *answers)
{
    static const uint8_t messages[5][2] = {{0, 1}, {0, 9}, {1, 1}, {1, 5}, {1, 6}};
    for (size_t n = 0; n < KNOWN; n++) {
        size_t choice = n;
        uint8_t resp = take(&choice, 8), fwd_state = take(&choice, 8);
        uint8_t tag_op = take(&choice, 4), resp_err = take(&choice, 4), after = take(&choice, STATES);
        const uint8_t *message = messages[choice];
        answers[n] = (struct answer){{message[0], message[1], resp, fwd_state, tag_op, resp_err, fwd_state != 0, fwd_state, after, 0}};
    }
}

/* Puts the IN_ERROR answers. */
static void put_in_error(struct answer *answers)
{
    static const uint8_t messages[2][2] = {{0, 9}, {1, 6}}, resps[5] = {0, 1, 3, 4, 5}, fwd_states[4] = {1, 2, 6, 7};
    for (size_t n = 0; n < IN_ERROR; n++) {
        size_t choice = n;
        uint8_t fwd_err = (uint8_t)(1 + take(&choice, 3)), resp = resps[take(&choice, 5)], fwd_state = fwd_states[take(&choice, 4)];
        uint8_t tag_op = take(&choice, 4), resp_err = take(&choice, 4), after = take(&choice, STATES);
        const uint8_t *message = messages[choice];
        answers[n] = (struct answer){{message[0], message[1], resp, fwd_state, tag_op, resp_err, 1, fwd_state, after, fwd_err}};
    }
}

/* Puts the NEAR answers that differ from this one in at most a single byte. */
static void put_near(struct answer *near, const struct answer *answer)
{
    static const uint8_t values[KOREHYUMO_ANSWER_BYTES] = {2, 32, 8, 8, 4, 4, 2, 8, STATES, 4};
    for (size_t byte = 0; byte < KOREHYUMO_ANSWER_BYTES; byte++)
        for (unsigned value = 0; value < values[byte]; value++, near++) {
            *near = *answer;
            near->bytes[byte] = (uint8_t)value;
        }
}

/* Gathers the answers to try, each once, and returns how many there are. */
static size_t gather_tried(void)
{
    size_t row_count = gather_rows();
    struct answer *near = tried + KNOWN + IN_ERROR;
    put_known(tried);
    put_in_error(tried + KNOWN);
    for (size_t row = 0; row < row_count; row++)
        put_near(near + row * NEAR, &rows[row]);
    return each_once(tried, KNOWN + IN_ERROR + row_count * NEAR);
}

/* Goes on in the list of a question if this answer is the next, and checks that it is so exactly if it is permitted. */
static void look_up(size_t question, size_t *next, const struct answer *answer, int permitted)
{
    int is_next = *next < counts[question] && order(&lists[question][*next], answer) == 0;
    wrong += is_next != permitted;
    *next += (size_t)is_next;
}

/* Judges a snoop with each answer that is tried, and goes along the lists of its seven questions to their ends. */
static void judge(size_t snoop, size_t count)
{
    uint8_t event[KOREHYUMO_EVENT_BYTES], sets[STATES], duties[STATES];
    size_t next[STATES] = {0};
    put_snoop(event, snoop);
    for (const struct answer *answer = tried; answer < tried + count; answer++, judged++) {
        memcpy(event + SNOOP_BYTES, answer, KOREHYUMO_ANSWER_BYTES);
        wrong += korehyumo_event(event, sizeof event, sets, duties) != 256;
        for (size_t before = 0; before < STATES; before++)
            look_up(snoop * STATES + before, &next[before], answer, sets[before] >> event[13] & 1);
    }
    for (size_t before = 0; before < STATES; before++)
        wrong += next[before] != counts[snoop * STATES + before];
}

int main(void)
{
    for (size_t question = 0; question < QUESTIONS; question++)
        ask(question);
    size_t count = gather_tried();
    for (size_t snoop = 0; snoop < SNOOPS; snoop++)
        judge(snoop, count);
    printf("listed: %d questions, %lu answers listed, %lu events judged, %lu wrong\n", QUESTIONS, listed, judged, wrong);
    return wrong != 0;
}
