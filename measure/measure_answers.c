/* Checks or measures the listers of answers: measure_answers check | time | repeat LISTER GROUP TIMES. */

#define _POSIX_C_SOURCE 200809L
#include <stdio.h>
#include <stdlib.h>
#include <string.h>
#include "../include/korehyumo.h"
#include "answers.h"
#include "draws.h"
#include "rounds.h"

/* Does nothing with a question, so that what stands around a call can be measured by itself. */
static uint64_t nothing(ASKED_AND_LENT)
{
    (void)request, (void)ret_to_src, (void)do_not_go_to_sd, (void)excl, (void)tag, (void)before, (void)room, (void)room_len;
    return 0;
}

const struct lister listers[LISTERS + 1] = {
    {"proved", korehyumo_answers}, {"by_table", by_table_answers}, {"by_events", by_events_answers}, {"around", nothing},
};

/* The questions whose lists have from least to most answers, and how many answers all those lists have. */
struct group {
    unsigned least;
    unsigned most;
    unsigned count;
    unsigned answers;
    uint8_t questions[QUESTIONS][QUESTION_BYTES];
};

/* How many groups are measured. */
#define GROUPS 7

/* The groups, the first of which has all questions in range. */
static struct group groups[GROUPS] = {
    {.least = 0, .most = MOST_ANSWERS}, {.least = 0, .most = 0}, {.least = 1, .most = 4}, {.least = 5, .most = 9},
    {.least = 10, .most = 19}, {.least = 20, .most = 39}, {.least = 40, .most = MOST_ANSWERS},
};

/* The room for a list. */
static uint8_t room[MOST_ANSWERS * ANSWER_BYTES];

/* Adds a question to the groups that its list belongs to. */
static void add_question(const uint8_t *question)
{
    unsigned answers = (unsigned)(length_of(ask(by_table_answers, question, room, sizeof room)) / ANSWER_BYTES);
    for (struct group *group = groups; group < groups + GROUPS; group++)
        if (answers >= group->least && answers <= group->most) {
            memcpy(group->questions[group->count++], question, QUESTION_BYTES);
            group->answers += answers;
        }
}

/* Fills the groups with all questions in a drawn order, so that one question tells nothing of the next. */
static void make_groups(void)
{
    static unsigned order[QUESTIONS];
    source = 1;
    for (unsigned n = 0; n < QUESTIONS; n++) {
        unsigned other = below(n + 1);
        order[n] = order[other];
        order[other] = n;
    }
    for (unsigned n = 0; n < QUESTIONS; n++) {
        uint8_t question[QUESTION_BYTES];
        put_question(question, order[n]);
        add_question(question);
    }
}

/* Asks a lister all questions of a group so many times; the room is not cleared. */
static void repeat(const struct lister *lister, const struct group *group, unsigned long times)
{
    lister_of_answers *volatile call = lister->lister;
    for (unsigned long n = 0; n < times; n++)
        for (unsigned k = 0; k < group->count; k++)
            ask(call, group->questions[k], room, sizeof room);
}

/* Something that is measured: a lister on a group. */
struct cell {
    const struct lister *lister;
    const struct group *group;
};

/* All that is measured. */
static struct cell cells[GROUPS * (LISTERS + 1)];

/* How many cells there are so far. */
static unsigned cell_count;

/* Lists what is measured: the listers that refuse on each group, the others, to which all questions are alike, on the first. */
static void put_cells(void)
{
    for (unsigned n = 0; n < GROUPS * (LISTERS + 1); n++) {
        unsigned lister = n % (LISTERS + 1), group = n / (LISTERS + 1);
        if (lister < REFUSING || group == 0)
            cells[cell_count++] = (struct cell){&listers[lister], &groups[group]};
    }
}

/* Asks the questions of a cell so many times. */
static void repeat_cell(unsigned cell, unsigned long times)
{
    repeat(cells[cell].lister, cells[cell].group, times);
}

/* Prints what the groups are. */
static void print_groups(void)
{
    for (unsigned n = 0; n < GROUPS; n++)
        printf("group %u %u %u %u %u\n", n, groups[n].least, groups[n].most, groups[n].count, groups[n].answers);
}

/* Measures and prints the time of a list of each cell. */
static void print_times(void)
{
    static struct timed timed[GROUPS * (LISTERS + 1)];
    take_times(timed, cell_count, repeat_cell);
    for (unsigned n = 0; n < cell_count; n++)
        printf("time %s %td %.3f\n", cells[n].lister->name, cells[n].group - groups, timed[n].least / cells[n].group->count);
}

/* Measures all cells. */
static void measure(void)
{
    put_cells();
    print_rounds();
    print_groups();
    print_times();
}

/* Asks one lister the questions of one group so many times, for its instructions to be counted. */
static int repeat_one(char **words)
{
    unsigned long group = strtoul(words[1], 0, 10);
    for (unsigned n = 0; n <= LISTERS && group < GROUPS; n++)
        if (strcmp(words[0], listers[n].name) == 0) {
            repeat(&listers[n], &groups[group], strtoul(words[2], 0, 10));
            return 0;
        }
    fprintf(stderr, "measure_answers: there is no lister %s or no group %s\n", words[0], words[1]);
    return 2;
}

/* Checks, measures or repeats, as the arguments say. */
int main(int count, char **words)
{
    answers_ready();
    make_groups();
    if (count == 5 && strcmp(words[1], "repeat") == 0)
        return repeat_one(words + 2);
    if (count == 2 && strcmp(words[1], "check") == 0)
        check_listers();
    else if (count == 2 && strcmp(words[1], "time") == 0)
        measure();
    else {
        fprintf(stderr, "usage: measure_answers check | time | repeat LISTER GROUP TIMES\n");
        return 2;
    }
    return fflush(stdout) == 0 && !ferror(stdout) ? 0 : 1;
}
