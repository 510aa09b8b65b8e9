/* Writes a bench sheet of mostly explained events, or of one event again and again: make_sheet LINES PAIRS SPREAD SEED [REPEATED] */

#include <stdint.h>
#include <stdio.h>
#include <stdlib.h>
#include <string.h>
#include "draws.h"
#include "sheet.h"

/* The sets of the pairs as a judge would know them. */
static unsigned char sets[MOST_PAIRS];

/* One event that is written again and again, whatever the pair. */
struct repeated {
    const char *name;
    struct drawn drawn;
};

/* The longest and the shortest good line but for the pair, and the longest and the shortest that stay explained when they come again. */
static const struct repeated repeated[] = {
    {"longest", {.request = SnpNotSharedDirtyFwd, .state_after = UCE, .event = {
        .tag = TAG_INVALID, .response = SnpRespData_SC_Fwded_SD_PD, .tag_op = OP_TRANSFER, .resp_err = NDERR,
        .forward = CompData_SD_PD, .fwd_err = NDERR}}},
    {"longest_explained", {.request = SnpNotSharedDirtyFwd, .state_after = SD, .event = {
        .ret_to_src = 1, .tag = TAG_INVALID, .response = SnpRespData_SD_Fwded_SC, .tag_op = OP_TRANSFER, .resp_err = DERR,
        .forward = CompData_SC, .fwd_err = DERR}}},
    {"shortest", {.request = SnpClean, .state_after = STATE_NOT_SEEN, .event = {
        .tag = TAG_NOT_SEEN, .response = SnpResp_I, .tag_op = OP_MATCH, .resp_err = OK, .forward = NO_FORWARD}}},
    {"shortest_explained", {.request = SnpClean, .state_after = STATE_NOT_SEEN, .event = {
        .tag = TAG_NOT_SEEN, .response = SnpResp_I, .tag_op = OP_INVALID, .resp_err = OK, .forward = NO_FORWARD}}},
};

/* The number that an argument says; ends the program where it says none from least to most. */
static unsigned long number(const char *word, unsigned long least, unsigned long most)
{
    char *end;
    unsigned long value = strtoul(word, &end, 10);
    if (*word < '0' || *word > '9' || *end || value < least || value > most) {
        fprintf(stderr, "make_sheet: %s is no number from %lu to %lu\n", word, least, most);
        exit(2);
    }
    return value;
}

/* The event that an argument names; ends the program where it names none. */
static const struct drawn *event_named(const char *word)
{
    for (size_t n = 0; n < sizeof repeated / sizeof repeated[0]; n++)
        if (strcmp(word, repeated[n].name) == 0)
            return &repeated[n].drawn;
    fprintf(stderr, "make_sheet: no event to repeat is called %s\n", word);
    exit(2);
}

/* Writes the line of an event on a pair. */
static void write_line(unsigned pair, const struct drawn *drawn)
{
    const struct event *event = &drawn->event;
    printf("%u,%s,%u,%u,%u,%s,%s,%s,%s,%s,%s,%s\r\n", pair, request_names[drawn->request],
           event->ret_to_src, event->do_not_go_to_sd, drawn->excl, tag_names[event->tag],
           response_names[event->response], tag_op_names[event->tag_op], error_names[event->resp_err],
           forward_names[event->forward], state_names[drawn->state_after],
           event->forward == NO_FORWARD ? NOTHING : error_names[event->fwd_err]);
}

/* Draws the lines one after another and writes them; of a repeated event only the pairs, the highest below SPREAD. */
int main(int count, char **words)
{
    if (count != 5 && count != 6) {
        fprintf(stderr, "usage: make_sheet LINES PAIRS SPREAD SEED [REPEATED]\n"
                        "(the header is not one of the LINES; pair numbers are below SPREAD)\n");
        return 2;
    }
    unsigned long lines = number(words[1], 0, 1000000000);
    unsigned pairs = (unsigned)number(words[2], 1, MOST_PAIRS);
    unsigned spread = (unsigned)number(words[3], pairs, MOST_PAIRS);
    start_draws(number(words[4], 0, 1000000000));
    const struct drawn *same = count == 6 ? event_named(words[5]) : 0;
    memset(sets, ALL_STATES, pairs);

    printf(SHEET_HEADER "\r\n");
    for (unsigned long line = 0; line < lines; line++)
        if (same)
            write_line(spread - pairs + below(pairs), same);
        else {
            struct drawn drawn = draw_next(sets, pairs, events_of_a_pair(lines, pairs));
            write_line(drawn.pair * (spread / pairs), &drawn);
        }
    return fflush(stdout) == 0 && !ferror(stdout) ? 0 : 1;
}
