/* The bench sheet answered by a program written for speed; with -DBY_ROWS it walks the rows instead. */

#include <errno.h>
#include <stdio.h>
#include <unistd.h>
#include "lookup.h"
#include "read_line.h"

/* How many bytes are read or written at a time. */
#define BUFFER_BYTES 65536u

/* How many bytes are read ahead of a line, unless the input has ended. */
#define LOOK_AHEAD 192u

/* The most bytes of a line without its CRLF. */
#define LONGEST_LINE 160u

/* The most lines of a sheet. */
#define MOST_LINES 1000001u

/* The most bytes of a line of the output, and a little that is written past its end. */
#define LONGEST_REPLY 64u

/* All of a line of the output that follows the event's number. */
struct reply {
    _Alignas(64) unsigned char text[48];
    uint8_t length;
};

/* An event's number as text in a number, first digit lowest; what adds one to its last digit, and what it stays below. */
struct count {
    uint64_t digits;
    uint64_t one;
    uint64_t limit;
    unsigned length;
};

/* The replies to explained events by duty and set after. */
static struct reply explained[DUTIES][ALL_STATES + 1];

/* The replies to other events by verdict. */
static struct reply others[VERDICTS];

#ifndef BY_ROWS
/* What the events of a key do, where the forward is the one that goes with the answer. */
static struct effect effects[1 << KEY_BITS];
#endif

/* The sets of the pairs. */
static uint8_t sets[MOST_PAIRS];

/* The input at hand, with room for a CRLF put after its end and for reading a little past that. */
static unsigned char input[BUFFER_BYTES + LOOK_AHEAD];

/* The output not yet written. */
static unsigned char output[BUFFER_BYTES];

/* Fills in one reply. */
static void put_reply(struct reply *reply, unsigned verdict, unsigned duty, unsigned set)
{
    char text[LONGEST_REPLY];
    int length = snprintf(text, sizeof text, ",%s,%s,", verdict_names[verdict], duty_names[duty]);
    const char *between = "";
    for (unsigned state = 0; state < STATES; state++)
        if (set & ONLY(state)) {
            length += snprintf(text + length, sizeof text - (size_t)length, "%s%s", between, state_names[state]);
            between = " ";
        }
    length += snprintf(text + length, sizeof text - (size_t)length, "\r\n");
    memcpy(reply->text, text, (size_t)length);
    reply->length = (uint8_t)length;
}

/* Whether some row can leave a pair in just these states, be the state after seen or not. */
static int can_be_left(unsigned set)
{
    for (const struct row *row = rows; row < rows + ROWS; row++)
        if (!(set & ~row->states_after))
            return 1;
    return 0;
}

/* Fills in the replies that can be given. */
static void put_replies(void)
{
    put_reply(&others[UNEXPLAINED], UNEXPLAINED, DUTY_NONE, 0);
    put_reply(&others[NOT_JUDGED], NOT_JUDGED, DUTY_NONE, 0);
    for (unsigned set = 1; set <= ALL_STATES; set++)
        for (unsigned duty = 0; can_be_left(set) && duty < DUTIES; duty++)
            put_reply(&explained[duty][set], EXPLAINED, duty, set);
}

#ifdef BY_ROWS

/* Nothing is looked up where the rows are walked. */
static void put_effects(void)
{
}

/* Judges a line on its pair's set by a walk along the rows. */
static inline struct finding judge(const struct line *line, unsigned set)
{
    struct event event = event_of(line->key, line->forward, line->fwd_err);
    return finding_by_rows(&event, set, line->allowed);
}

#else

/* Fills in from the rows what the events of each key do, and lets an ending allow nothing where no row takes its error field. */
static void put_effects(void)
{
    for (const struct row *row = rows; row < rows + ROWS; row++)
        for (unsigned low = 0; low < 1u << RESPONSE_BIT; low++) {
            unsigned key = low + ((unsigned)row->response << RESPONSE_BIT);
            struct event event = event_of(key, row->forward, OK);
            if (permits(row, &event))
                add_row(&effects[key], row, &event);
        }
    for (struct ending *ending = endings; ending < endings + (1 << ENDING_BITS); ending++)
        if (!takes_fwd_err(ending->forwarded, ending->fwd_err))
            ending->allowed = 0;
}

/* Judges a line on its pair's set by one lookup. */
static inline struct finding judge(const struct line *line, unsigned set)
{
    unsigned allowed = line->forward == line->forward_of_response ? line->allowed : 0;
    return finding_by_effect(&effects[line->key], set, allowed);
}

#endif

/* Writes bytes out, and ends the program where that cannot be done. */
static void write_out(const unsigned char *bytes, size_t length)
{
    while (length > 0) {
        ssize_t went = write(1, bytes, length);
        if (went < 0 && errno == EINTR)
            continue;
        if (went <= 0)
            _exit(1);
        bytes += went;
        length -= (size_t)went;
    }
}

/* Moves the rest of the input to the front of the buffer, reads until there is enough, and gives the new end. */
static const unsigned char *read_more(const unsigned char *rest, const unsigned char *end, int *ended)
{
    size_t length = (size_t)(end - rest);
    memmove(input, rest, length);
    while (length < LOOK_AHEAD) {
        ssize_t came = read(0, input + length, BUFFER_BYTES - length);
        if (came < 0 && errno == EINTR)
            continue;
        if (came < 0)
            _exit(1);
        if (came == 0) {
            *ended = 1;
            input[length] = '\r';
            input[length + 1] = '\n';
            break;
        }
        length += (size_t)came;
    }
    return input + length;
}

/* The refusal of the malformed line that starts here, where the CRLF put after the input's end counts as its own. */
static unsigned fault_of(const unsigned char *at)
{
    for (unsigned n = 0; n <= LONGEST_LINE; n++)
        if (at[n] == '\r' && at[n + 1] == '\n')
            return MALFORMED;
    return TOO_LONG;
}

/* Carries where the last digit has gone past 9. */
static void carry(struct count *count)
{
    uint64_t one = count->one;
    for (;;) {
        count->digits -= 10 * one;
        if (one == 1)
            break;
        one >>= 8;
        count->digits += one;
        if ((count->digits / one & 255) <= '9')
            return;
    }
    count->digits = count->digits << 8 | '1';
    count->one <<= 8;
    count->limit <<= 8;
    count->length++;
}

/* Judges a line, moves its pair's set, writes the answer, and gives where the next answer goes. */
static inline unsigned char *answer(const struct line *line, struct count *count, unsigned char *out)
{
    struct finding finding = judge(line, sets[line->pair]);
    const struct reply *reply = &others[finding.verdict];
    if (finding.verdict == EXPLAINED)
        reply = &explained[finding.duty][finding.after_set];
    unsigned char *next = out + count->length + reply->length;
    sets[line->pair] = (uint8_t)finding.after_set;
    for (int n = 0; n < 8; n++)
        out[n] = (unsigned char)(count->digits >> 8 * n);
    memcpy(out + count->length, reply->text, sizeof reply->text);
    count->digits += count->one;
    if (count->digits >= count->limit)
        carry(count);
    return next;
}

/* Writes the refusal of a line, where there is one, and all the output that is not yet written. */
static void finish(unsigned char *out, unsigned refusal, unsigned line)
{
    if (refusal)
        out += snprintf((char *)out, LONGEST_REPLY, "refused,%u,%u\r\n", refusal, line);
    write_out(output, (size_t)(out - output));
}

/* Answers the lines after the header; apart from its caller, whose values would take registers from it. */
__attribute__((noinline))
static void answer_lines(const unsigned char *at, const unsigned char *end, int ended, unsigned char *out)
{
    unsigned refusal = ACCEPTED, lines = 1;
    struct count count = {'0', 1, '9' + 1, 1};
    for (;;) {
        if (end - at < (ptrdiff_t)LOOK_AHEAD) {
            if (!ended) {
                end = read_more(at, end, &ended);
                at = input;
            }
            if (at >= end)
                break;
        }
        if (out > output + BUFFER_BYTES - LONGEST_REPLY) {
            write_out(output, (size_t)(out - output));
            out = output;
        }
        struct line line;
        const unsigned char *next = 0;
        if (++lines > MOST_LINES)
            refusal = TOO_LONG;
        else if (!(next = read_line(at, &line)))
            refusal = fault_of(at);
        else if (line.pair >= MOST_PAIRS)
            refusal = NO_PAIR;
        if (refusal)
            break;
        at = next;
        out = answer(&line, &count, out);
    }
    finish(out, refusal, lines);
}

/* Reads the sheet from standard input and writes its answers to standard output. */
int main(void)
{
    put_names();
    put_replies();
    put_effects();
    memset(sets, ALL_STATES, sizeof sets);

    int ended = 0;
    const unsigned char *end = read_more(input, input, &ended);
    unsigned char *out = output + sizeof OUTPUT_HEADER + 1;
    memcpy(output, OUTPUT_HEADER "\r\n", sizeof OUTPUT_HEADER + 1);
    if (memcmp(input, SHEET_HEADER "\r\n", sizeof SHEET_HEADER + 1) == 0)
        answer_lines(input + sizeof SHEET_HEADER + 1, end, ended, out);
    else
        finish(out, NO_HEADER, 1);
    return 0;
}
